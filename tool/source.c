/* Files, read whole into memory. */
#define _XOPEN_SOURCE 700
#include "tool.h"

#include <errno.h>
#include <fcntl.h>
#include <stdlib.h>
#include <string.h>
#include <sys/stat.h>
#include <unistd.h>

void *must_allocate(size_t count, size_t size) {
    void *memory = calloc(count ? count : 1, size);
    if (!memory) {
        fprintf(stderr, "luohtemik: no memory for %zu numbers of %zu bytes\n", count, size);
        exit(EXIT_TROUBLE);
    }
    return memory;
}

void say_trouble(const char *path, const char *why) {
    fputs("luohtemik: ", stderr);
    out_path(stderr, path);
    fprintf(stderr, ": %s\n", why);
}

/* What an archive is and how it is unpacked; null where it is none. A name that ends in .class is taken at its word. */
static const char *archive_of(const source *s) {
    static const uint8_t zip[] = {'P', 'K', 3, 4}, no_entries[] = {'P', 'K', 5, 6}, jmod[] = {'J', 'M', 1}, image[] = {0xDA, 0xDA, 0xFE, 0xCA};
    if (s->size < 4 || ends_with(s->path, ".class")) return NULL;
    if (memcmp(s->bytes, jmod, sizeof jmod) == 0) return "is a jmod; unpack it (jmod extract --dir FOLDER FILE) and name the folder";
    if (memcmp(s->bytes, image, sizeof image) == 0) return "is a jimage; unpack it (jimage extract --dir=FOLDER FILE) and name the folder";
    if (memcmp(s->bytes, zip, sizeof zip) != 0 && memcmp(s->bytes, no_entries, sizeof no_entries) != 0) return NULL;
    if (ends_with(s->path, ".jar")) return "is a jar; unpack it (unzip -d FOLDER FILE) and name the folder";
    return "is a zip archive; unpack it (unzip -d FOLDER FILE) and name the folder";
}

/* Why an open file is not one to read; null where it is. How much room it needs at first. */
static const char *judge_file(int fd, bool found, size_t most, size_t *room) {
    struct stat st;
    if (fstat(fd, &st) != 0) return strerror(errno);
    if (S_ISDIR(st.st_mode)) return "is a folder; name a class file (the command 'check' takes folders too)";
    if (found && !S_ISREG(st.st_mode)) return "is a pipe, a device or a socket, no file";
    *room = S_ISREG(st.st_mode) && (uint64_t)st.st_size < most ? (size_t)st.st_size + 1 : most;
    return NULL;
}

static const char *read_all(source *s, int fd, size_t room, size_t most) {
    s->bytes = must_allocate(room, 1);
    while (s->size < most) {
        if (s->size == room) { /* it grew since its size was asked for */
            room = room < most / 2 ? room * 2 : most;
            uint8_t *more = realloc(s->bytes, room);
            if (!more) return "no memory to read it";
            s->bytes = more;
        }
        ssize_t got = read(fd, s->bytes + s->size, room - s->size);
        if (got < 0 && errno == EINTR) continue;
        if (got < 0) return strerror(errno);
        if (got == 0) break;
        s->size += (size_t)got;
    }
    return archive_of(s);
}

const char *source_read(source *s, const char *path, bool found) {
    *s = (source){.path = path};
    size_t most = (size_t)LUO_MOST_BYTES + 1, room = 0;
    bool standard = !found && strcmp(path, "-") == 0;
    /* a pipe in a folder may have no writer: it is opened without waiting for one */
    int fd = standard ? STDIN_FILENO : open(path, O_RDONLY | O_CLOEXEC | (found ? O_NONBLOCK : 0));
    if (fd < 0) return strerror(errno);
    const char *why = judge_file(fd, found, most, &room);
    if (!why) why = read_all(s, fd, room, most);
    if (!standard) close(fd);
    if (why) source_free(s);
    return why;
}

bool source_take(source *s, const char *path, const options *o) {
    progress_begin(1);
    progress_at(0);
    const char *why = source_read(s, path, false);
    if (!why) return true;
    progress_done();
    say_trouble(path, why);
    if (o->json) {
        out_json_open(stdout, path);
        fputs(", \"error\": ", stdout);
        out_json_path(stdout, why);
        fputs("}\n", stdout);
    }
    return false;
}

void source_free(source *s) {
    free(s->bytes);
    s->bytes = NULL;
}
