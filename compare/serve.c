/* The library's calls in a process of its own, for a driver on another processor (compare/src/served.rs is its other end).
 *
 * Reads requests from standard input and answers each on standard output, until the input ends. Numbers are 32 bits, little-endian.
 *   request: call, slot, length of the file, whether its bytes follow, length of the handed table, whether its bytes follow,
 *            the bytes of each of ten lent slices; then the bytes of the file and of the table where they follow (else the last ones stay)
 *   answer:  the size of the answer's struct, the struct as C lays it out, every lent slice
 * Each slice ends where memory that cannot be touched begins (tests/c/area.h): a call that reads or writes behind a slice ends this
 * process, which the driver reports. What is lent for writing is full of 0xA5. */
#define _GNU_SOURCE
#include "area.h"
#include "luohtemik.h"

#include <fcntl.h>
#include <signal.h>
#include <string.h>
#include <sys/prctl.h>

enum { LENT = 10 };

typedef struct {
    uint32_t call, slot, file_len, file_new, table_len, table_new, lent[LENT];
} request;

static void fail(const char *what) {
    fprintf(stderr, "serve: %s\n", what);
    exit(3);
}

static area file, table, lent[LENT];

static void take(void *to, size_t len) {
    if (len && fread(to, 1, len, stdin) != len) fail("the input ends inside a request");
}

static void give(const void *from, size_t len) {
    if (len && fwrite(from, 1, len, stdout) != len) fail("the driver does not listen");
}

/* ---- the calls, numbered as in compare/src/served.rs */

#define ANSWER(expression)                      \
    do {                                        \
        __auto_type r = expression;             \
        uint32_t size = (uint32_t)sizeof r;     \
        give(&size, sizeof size);               \
        give(&r, sizeof r);                     \
    } while (0)
#define LOOKUP(call) ANSWER(call(file.at, file.len, table.at, table.len, slot))
#define NUMBERS16(n) (uint16_t *)(void *)lent[n].at, lent[n].len / 2
#define NUMBERS32(n) (uint32_t *)(void *)lent[n].at, lent[n].len / 4

static void answer(uint32_t call, uint32_t slot) {
    switch (call) {
    case 0: ANSWER(luo_pool(file.at, file.len, lent[0].at, lent[0].len)); break;
    case 1: LOOKUP(luo_literal); break;
    case 2: LOOKUP(luo_class_name); break;
    case 3: LOOKUP(luo_module_name); break;
    case 4: LOOKUP(luo_package_name); break;
    case 5: LOOKUP(luo_method_type); break;
    case 6: LOOKUP(luo_name_and_type); break;
    case 7: LOOKUP(luo_member_reference); break;
    case 8: LOOKUP(luo_method_handle); break;
    case 9: LOOKUP(luo_dynamic); break;
    case 10: LOOKUP(luo_invoke_dynamic); break;
    case 11: LOOKUP(luo_text); break;
    case 12: LOOKUP(luo_utf8_part); break;
    case 13: ANSWER(luo_dependants(file.at, file.len, table.at, table.len, slot, lent[0].at, lent[0].len)); break;
    case 14:
        ANSWER(luo_class(file.at, file.len, NUMBERS32(0), NUMBERS16(1), NUMBERS16(2), NUMBERS16(3), NUMBERS16(4), NUMBERS32(5), NUMBERS16(6),
                         NUMBERS16(7), NUMBERS32(8), NUMBERS32(9)));
        break;
    case 15: ANSWER(luo_entries(file.at, file.len, NUMBERS32(0))); break;
    default: fail("a call that there is not");
    }
}

int main(void) {
    prctl(PR_SET_PDEATHSIG, SIGKILL); /* no call outlives a driver that was ended for its time */
    fcntl(0, F_SETPIPE_SZ, 1 << 20);
    fcntl(1, F_SETPIPE_SZ, 1 << 20);
    setvbuf(stdin, NULL, _IOFBF, 1 << 20);
    setvbuf(stdout, NULL, _IOFBF, 1 << 20);
    place(&file, 0, 0);
    place(&table, 0, 0);
    request q;
    for (size_t got; (got = fread(&q, 1, sizeof q, stdin)) != 0;) {
        if (got != sizeof q) fail("the input ends inside a request");
        if (q.file_new) {
            place(&file, q.file_len, 0);
            take(file.at, file.len);
        }
        if (q.table_new) {
            place(&table, q.table_len, 0);
            take(table.at, table.len);
        }
        for (int i = 0; i < LENT; i++) {
            place(&lent[i], q.lent[i], 0);
            memset(lent[i].at, 0xA5, lent[i].len);
        }
        answer(q.call, q.slot);
        for (int i = 0; i < LENT; i++) give(lent[i].at, lent[i].len);
        if (fflush(stdout) != 0) fail("the driver does not listen");
    }
    return 0;
}
