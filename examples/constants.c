/* A loader that takes a table: every constant of a class, by its field's name.
   cc constants.c $(pkg-config --cflags --libs luohtemik) -o constants; ./constants Curve.class

   A `static final` field with a constant has the attribute ConstantValue, whose two bytes are the slot of the value. Luohtemik frames the
   attribute and does not judge those two bytes, so that they are checked here. Numbers that stand in the pool without a field are none of
   a table's: an array's are written partly as instructions, and equal ones once. */
#include <luohtemik_tables.h>
#include <stdio.h>
#include <stdlib.h>
#include <string.h>

static uint8_t file[LUO_MOST_BYTES], tags[LUO_MOST_SLOTS];
static uint32_t firsts[LUO_MOST_SLOTS], seconds[LUO_MOST_SLOTS]; /* two numbers of each slot: see luo_slots32 */

static int is_text(uint32_t slot, const char *text) {
    return seconds[slot] == strlen(text) && memcmp(file + firsts[slot], text, seconds[slot]) == 0;
}

/* The slot of a field's constant; 0 where it has none. */
static uint32_t constant_of(const luo_tables *t, uint32_t field, uint32_t slots) {
    for (uint32_t a = t->firsts[field]; a < t->firsts[field] + t->counts[field]; a++) {
        if (!is_text(t->titles[a], "ConstantValue") || t->lengths[a] != 2) continue;
        uint32_t slot = (uint32_t)file[t->bodies[a]] << 8 | file[t->bodies[a] + 1];
        return slot < slots ? slot : 0;
    }
    return 0;
}

static void print_constant(uint32_t name, uint32_t slot) {
    uint64_t bits = (uint64_t)firsts[slot] << 32 | seconds[slot];
    float single;
    double wide;
    memcpy(&single, &firsts[slot], sizeof single);
    memcpy(&wide, &bits, sizeof wide);
    printf("%.*s ", (int)seconds[name], (const char *)file + firsts[name]);
    switch (tags[slot]) {
    case LUO_INTEGER: printf("%ld\n", (long)(int32_t)firsts[slot]); break;
    case LUO_LONG: printf("%lld\n", (long long)(int64_t)bits); break;
    case LUO_FLOAT: printf("%.9g\n", (double)single); break;
    case LUO_DOUBLE: printf("%.17g\n", wide); break;
    case LUO_STRING: printf("%.*s\n", (int)seconds[firsts[slot]], (const char *)file + firsts[firsts[slot]]); break;
    default: printf("(slot %u is no constant)\n", (unsigned)slot);
    }
}

int main(int count, char **words) {
    FILE *f = count == 2 ? fopen(words[1], "rb") : NULL;
    if (!f) {
        fprintf(stderr, "usage: constants FILE\n");
        return 2;
    }
    size_t size = fread(file, 1, sizeof file, f);
    fclose(f);
    luo_tables t;
    void *block = malloc(luo_tables_size(size));
    if (!block) return 2;
    luo_tables_lay(&t, block, size);
    luo_class_answer c = luo_class_in(file, size, &t);
    if (c.refusal) {
        fprintf(stderr, "refused with %u at %llu: %s\n", (unsigned)c.refusal, (unsigned long long)c.place, luo_sentence(c.refusal));
        free(block);
        return 1;
    }
    luo_slots32(file, size, t.table, c.slots, tags, c.slots, firsts, c.slots, seconds, c.slots);
    for (uint32_t i = 0; i < c.fields; i++) {
        uint32_t slot = constant_of(&t, i, c.slots);
        if (slot) print_constant(t.names[i], slot);
    }
    free(block);
    return 0;
}
