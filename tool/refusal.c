/* Refusals, in a plain sentence each, with the place shown. */
#include "tool.h"

#include <stdlib.h>

static const char *counts_name(luo_place counts) {
    static const char *const names[] = {[LUO_BYTE] = "byte", [LUO_SLOT] = "slot", [LUO_CELL] = "cell", [LUO_NEEDED] = "needed"};
    return names[counts];
}

void refusal_print(FILE *f, const source *s, uint32_t number, uint64_t place, luo_place counts) {
    if (s->size == 0)
        fprintf(f, "refused with %u at byte 0: the file is empty", number);
    else if (counts == LUO_NEEDED)
        fprintf(f, "refused with %u, %llu cells needed: %s", number, (unsigned long long)place, luo_sentence(number));
    else
        fprintf(f, "refused with %u at %s %llu: %s", number, counts_name(counts), (unsigned long long)place, luo_sentence(number));
}

/* Eight bytes before a place and eight from it on, the one at the place between brackets. */
static void bytes_around(FILE *f, const source *s, uint64_t place) {
    uint64_t from = place < 8 ? 0 : place - 8, to = place + 8 < s->size ? place + 8 : s->size;
    if (s->size == 0) return;
    fprintf(f, "  byte %llu (0x%llX):%s", (unsigned long long)place, (unsigned long long)place, from ? " .." : "");
    for (uint64_t i = from; i < to; i++) fprintf(f, i == place ? " [%02X]" : " %02X", s->bytes[i]);
    fputs(to < s->size ? " ..\n" : place < s->size ? " end of the file\n" : " [end of the file]\n", f);
}

static void slot_around(FILE *f, const source *s, uint64_t place) {
    pool_of p;
    pool_read(&p, s);
    if (!p.pool.refusal && place < p.pool.slots) {
        fprintf(f, "  slot %llu: ", (unsigned long long)place);
        entry_print(f, s, &p, (uint32_t)place);
        fputc('\n', f);
    } else {
        /* the pool is refused, so that nothing can be looked up: its entry as the bytes that it begins with */
        uint32_t *cells = must_allocate(LUO_MOST_SLOTS, sizeof *cells);
        luo_pool_answer read = luo_entries(s->bytes, s->size, cells, LUO_MOST_SLOTS);
        if (!read.refusal && place < read.slots) {
            uint32_t at = cells[place];
            fprintf(f, "  slot %llu: %s\n", (unsigned long long)place, at ? kind_name(s->bytes[at]) : "no entry of its own");
            if (at) bytes_around(f, s, at);
        }
        free(cells);
    }
    pool_free(&p);
}

void refusal_print_place(FILE *f, const source *s, uint64_t place, luo_place counts) {
    if (counts == LUO_BYTE) bytes_around(f, s, place);
    if (counts == LUO_SLOT) slot_around(f, s, place);
}

void refusal_print_json(FILE *f, uint32_t number, uint64_t place, luo_place counts) {
    fprintf(f, "\"refusal\": %u, \"place\": %llu, \"counts\": \"%s\", \"sentence\": ", number, (unsigned long long)place, counts_name(counts));
    out_json_path(f, luo_sentence(number));
}
