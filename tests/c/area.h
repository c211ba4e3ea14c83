/* Memory that ends where memory that cannot be touched begins, and begins where such memory ends: a read or a write outside a slice that
   lies at either end of it is a fault. The guards are 64 KiB, the largest page of any host that an emulator runs on. */
#ifndef AREA_H
#define AREA_H

#include <stdint.h>
#include <stdio.h>
#include <stdlib.h>
#include <sys/mman.h>

enum { GUARD = 65536, MOST = 1 << 26 };

typedef struct {
    uint8_t *begin, *end; /* between the guards */
    uint8_t *at;          /* the slice that was placed last */
    size_t len;
} area;

/* Places a slice of len bytes: its end at the guard behind it or, where `low`, its begin at the guard before it. */
static void place(area *a, size_t len, int low) {
    if (!a->end || len > (size_t)(a->end - a->begin)) {
        if (a->end) munmap(a->begin - GUARD, (size_t)(a->end - a->begin) + 2 * GUARD);
        size_t room = GUARD;
        while (room < len && room < MOST) room *= 2;
        uint8_t *all = mmap(NULL, room + 2 * GUARD, PROT_NONE, MAP_PRIVATE | MAP_ANONYMOUS, -1, 0);
        if (len > room || all == MAP_FAILED || mprotect(all + GUARD, room, PROT_READ | PROT_WRITE) != 0) {
            fprintf(stderr, "no memory for a slice of %zu bytes\n", len);
            exit(3);
        }
        a->begin = all + GUARD;
        a->end = a->begin + room;
    }
    a->at = low ? a->begin : a->end - len;
    a->len = len;
}

#endif
