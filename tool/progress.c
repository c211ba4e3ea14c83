/* On a terminal: how many files are done, and for how many seconds the one at hand is worked on. A clock interrupts once a second, so that
   it is seen inside one large file, or while a pipe is waited for. */
#define _XOPEN_SOURCE 700
#include "tool.h"

#include <errno.h>
#include <signal.h>
#include <sys/time.h>
#include <unistd.h>

static volatile sig_atomic_t working, shown, at_file, of_files, seconds;

/* A number at the end of a text of `room` bytes that is filled from behind; what is still free of it. */
static size_t put_before(char *text, size_t room, unsigned number) {
    do {
        text[--room] = (char)('0' + number % 10);
        number /= 10;
    } while (number);
    return room;
}

static size_t put_word(char *text, size_t room, const char *word, size_t length) {
    while (length) text[--room] = word[--length];
    return room;
}

/* '\r7 of 40, 3 s', by what a signal's handler may call. */
static void tick(int signal) {
    (void)signal;
    if (!working) return;
    int kept = errno;
    char text[64];
    size_t at = put_word(text, sizeof text, " s", 2);
    seconds = seconds + 1;
    at = put_before(text, at, (unsigned)seconds);
    if (of_files > 1) {
        at = put_word(text, at, ", ", 2);
        at = put_before(text, at, (unsigned)of_files);
        at = put_word(text, at, " of ", 4);
        at = put_before(text, at, (unsigned)at_file);
    }
    at = put_word(text, at, "\r", 1);
    shown = 1;
    (void)!write(STDERR_FILENO, text + at, sizeof text - at);
    errno = kept;
}

void progress_begin(size_t total) {
    if (!isatty(STDERR_FILENO)) return;
    of_files = (sig_atomic_t)(total & 0x7FFFFFFF);
    struct sigaction act = {.sa_handler = tick, .sa_flags = SA_RESTART};
    struct itimerval second = {{1, 0}, {1, 0}};
    sigaction(SIGALRM, &act, NULL);
    setitimer(ITIMER_REAL, &second, NULL);
}

void progress_at(size_t at) {
    at_file = (sig_atomic_t)(at & 0x7FFFFFFF);
    seconds = 0;
    working = 1;
}

void progress_done(void) {
    working = 0;
    if (!shown) return;
    shown = 0;
    static const char blank[] = "\r                                        \r";
    (void)!write(STDERR_FILENO, blank, sizeof blank - 1);
}
