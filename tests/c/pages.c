/* What luohtemik.h says beside its calls: a sentence and a place for each refusal; what a place counts, held against the pool read again, on
   files and on what becomes of them by one changed byte or a cut; null slices of length 0 in every call; the three examples of 'explain'
   that need a call. Prints 'N judged, M differences'.    pages FILE.. */
#include "luohtemik_tables.h"

#include <stdio.h>
#include <stdlib.h>
#include <string.h>

static unsigned judged, differences;

static void is(int good, const char *what, unsigned long number) {
    judged++;
    if (good) return;
    differences++;
    printf("%s (%lu)\n", what, number);
}

/* ---- words */

static void words(void) {
    for (uint32_t n = 0; n <= LUO_LEFT_OVER; n++) {
        is(luo_sentence(n)[0] != 0 && luo_where(n)[0] != 0, "a refusal without words", n);
        for (uint32_t m = 0; m < n; m++) is(strcmp(luo_sentence(n), luo_sentence(m)) != 0, "two refusals with one sentence", n);
    }
    is(strstr(luo_sentence(LUO_LEFT_OVER + 1), "does not know") != NULL, "a sentence for no refusal", LUO_LEFT_OVER + 1);
    is(strstr(luo_where(UINT32_MAX), "does not know") != NULL, "a place for no refusal", UINT32_MAX);
}

/* ---- what a place counts */

static uint32_t table[LUO_MOST_SLOTS], cells[LUO_MOST_SLOTS];
static unsigned slots_seen, bytes_seen;

/* The place of luo_class's refusal, where the pool is read again to learn what it counts. */
static void place_of(const uint8_t *file, size_t size, luo_tables *t) {
    luo_class_answer c = luo_class_in(file, size, t);
    luo_place said = luo_class_counts(file, size, c.refusal, c.place);
    if (!c.refusal) return;
    luo_pool_answer p = luo_pool32(file, size, table, LUO_ROOM_SLOTS(size));
    luo_place of_pool = luo_counts(p.refusal);
    if (p.refusal) {
        is(p.refusal == c.refusal && p.place == c.place && said == of_pool, "the pool's refusal", c.refusal);
    } else if (c.refusal == LUO_BOOTSTRAP_COUNT || c.refusal == LUO_BOOTSTRAP_INDEX) {
        is(said == LUO_SLOT && c.place < p.slots, "a slot of 16 or 17", (unsigned long)c.place);
    } else {
        is(said == LUO_BYTE && c.place <= size, "a byte after the pool", (unsigned long)c.place);
    }
    if (c.refusal < LUO_RANGE || LUO_DESCRIPTOR < c.refusal) return;
    slots_seen += said == LUO_SLOT;
    bytes_seen += said == LUO_BYTE;
}

static void places(const char *path) {
    static uint8_t file[1 << 16];
    FILE *f = fopen(path, "rb");
    if (!f) exit(2);
    size_t size = fread(file, 1, sizeof file, f);
    fclose(f);
    luo_tables t;
    void *block = malloc(luo_tables_size(size));
    if (!block) exit(2);
    luo_tables_lay(&t, block, size);
    for (size_t i = 0; i < size; i++) {
        static const uint8_t changes[] = {0x00, 0x01, 0x02, 0x07, 0x2E, 0x3B, 0x80, 0xFF};
        uint8_t kept = file[i];
        for (size_t k = 0; k < sizeof changes; k++) {
            file[i] = changes[k];
            place_of(file, size, &t);
        }
        file[i] = kept;
        place_of(file, i, &t);
    }
    free(block);
}

/* Where slot and byte come closest: pools of empty texts, each of three bytes, then a class whose `this` is wrong, or a last entry that is. */
static void closest(void) {
    static uint8_t file[10 + 3 * 65536 + 64];
    static const uint8_t first[8] = {0xCA, 0xFE, 0xBA, 0xBE, 0, 0, 0, 52};
    static const uint32_t counts[] = {0, 1, 2, 3, 5, 255, 256, 65534, 65535};
    for (size_t k = 0; k < sizeof counts / sizeof *counts; k++)
        for (int last = 0; last < 2; last++) {
            size_t size = 10;
            memcpy(file, first, sizeof first);
            file[8] = (uint8_t)(counts[k] >> 8);
            file[9] = (uint8_t)counts[k];
            for (uint32_t n = 1; n < counts[k]; n++, size += 3) memcpy(file + size, "\1\0\0", 3);
            if (last && counts[k] > 1) memcpy(file + size - 3, "\7\xFF\xFF", 3);
            memset(file + size, 0, 14);
            luo_tables t;
            void *block = malloc(luo_tables_size(size + 14));
            if (!block) exit(2);
            luo_tables_lay(&t, block, size + 14);
            place_of(file, size + 14, &t);
            free(block);
        }
}

/* ---- null slices of length 0 */

static const uint8_t small[] = {0xCA, 0xFE, 0xBA, 0xBE, 0, 0, 0, 52, 0, 4, 7, 0, 2, 1, 0, 1, 'A', 8, 0, 2};

#define NULL_LOOKUP(call) \
    do { \
        is(call(NULL, 0, NULL, 0, 1).refusal == LUO_END, #call " of nothing", 0); \
        is(call(small, sizeof small, NULL, 0, 1).refusal == LUO_OTHER_TABLE, #call " with no table", 0); \
    } while (0)
#define NULL_BOTH(call) \
    do { \
        NULL_LOOKUP(call); \
        NULL_LOOKUP(call##32); \
    } while (0)

static void null_lookups(void) {
    NULL_BOTH(luo_literal);
    NULL_BOTH(luo_class_name);
    NULL_BOTH(luo_module_name);
    NULL_BOTH(luo_package_name);
    NULL_BOTH(luo_method_type);
    NULL_BOTH(luo_name_and_type);
    NULL_BOTH(luo_member_reference);
    NULL_BOTH(luo_method_handle);
    NULL_BOTH(luo_dynamic);
    NULL_BOTH(luo_invoke_dynamic);
    NULL_BOTH(luo_text);
    NULL_BOTH(luo_utf8_part);
}

static void null_slices(void) {
    uint8_t bytes[16];
    null_lookups();
    is(luo_pool(NULL, 0, NULL, 0).refusal == LUO_END, "luo_pool of nothing", 0);
    is(luo_pool(small, sizeof small, NULL, 0).refusal == LUO_NO_CELL, "luo_pool with no table", 0);
    is(luo_pool32(NULL, 0, NULL, 0).refusal == LUO_END, "luo_pool32 of nothing", 0);
    is(luo_pool32(small, sizeof small, NULL, 0).refusal == LUO_NO_CELL, "luo_pool32 with no table", 0);
    is(luo_entries(NULL, 0, NULL, 0).refusal == LUO_END, "luo_entries of nothing", 0);
    is(luo_entries(small, sizeof small, NULL, 0).refusal == LUO_NO_CELL, "luo_entries with no table", 0);
    is(luo_pool(small, sizeof small, bytes, sizeof bytes).slots == 4, "the small pool", 0);
    is(luo_pool32(small, sizeof small, cells, 4).slots == 4, "the small pool", 1);
    is(luo_dependants(small, sizeof small, bytes, sizeof bytes, 1, NULL, 0).refusal == LUO_ACCEPTED, "no dependants in no list", 0);
    is(luo_dependants(small, sizeof small, bytes, sizeof bytes, 2, NULL, 0).place == 2, "two dependants in no list", 0);
    is(luo_dependants32(small, sizeof small, cells, 4, 1, NULL, 0).refusal == LUO_ACCEPTED, "no dependants in no list", 1);
    is(luo_dependants32(small, sizeof small, cells, 4, 2, NULL, 0).place == 2, "two dependants in no list", 1);
    is(luo_dependants32(NULL, 0, NULL, 0, 2, NULL, 0).refusal == LUO_END, "dependants of nothing", 0);
    is(luo_slots32(small, sizeof small, cells, 4, NULL, 0, NULL, 0, NULL, 0).refusal == LUO_NO_ROOM, "slots in no list", 0);
    is(luo_slots32(NULL, 0, NULL, 0, NULL, 0, NULL, 0, NULL, 0).refusal == LUO_END, "slots of nothing", 0);
    luo_tables none = {0};
    is(luo_class_in(NULL, 0, &none).refusal == LUO_END, "a class of nothing", 0);
    is(luo_class_in(small, sizeof small, &none).refusal == LUO_NO_CELL, "a class with no table", 0);
    is(luo_class_counts(NULL, 0, LUO_END, 0) == LUO_BYTE, "a place in nothing", 0);
}

/* ---- what 'explain' says of 5, 12 and 13 */

static void examples(void) {
    static const uint8_t five[] = {0xCA, 0xFE, 0xBA, 0xBE, 0, 0, 0, 52, 0, 2, 1, 0, 0};
    static const uint8_t thirteen[] = {0xCA, 0xFE, 0xBA, 0xBE, 0,    0, 0, 52, 0, 7, 0x0F, 1, 0,    2, 9, 0, 3,   0,   4,
                                       7,    0,    5,    0x0C, 0,    5, 0, 6,  1, 0, 1,    'A', 1,  0, 1, 'I'};
    static const uint32_t wrong[2] = {0, 11};
    uint16_t list[3];
    luo_pool_answer a = luo_pool32(five, sizeof five, cells, 1);
    is(a.refusal == LUO_NO_CELL && a.place == 1, "the example of 5", a.refusal);
    luo_text_answer b = luo_text32(five, sizeof five, wrong, 2, 1);
    is(b.refusal == LUO_OTHER_TABLE && b.place == 1, "the example of 12", b.refusal);
    is(luo_pool32(thirteen, sizeof thirteen, cells, 7).slots == 7, "the pool of the example of 13", 0);
    luo_list_answer c = luo_dependants32(thirteen, sizeof thirteen, cells, 7, 5, list, 3);
    is(c.refusal == LUO_NO_ROOM && c.place == 4 && luo_counts(c.refusal) == LUO_NEEDED, "the example of 13", c.refusal);
}

int main(int count, char **paths) {
    words();
    closest();
    for (int i = 1; i < count; i++) places(paths[i]);
    is(count < 2 || (slots_seen > 100 && bytes_seen > 100), "too few places of 7 to 11", slots_seen);
    null_slices();
    examples();
    printf("%u judged (%u slots and %u bytes of 7 to 11), %u differences\n", judged, slots_seen, bytes_seen, differences);
    return differences != 0;
}
