/* The commands 'lookup' and 'dependants': one slot of a pool. */
#include "tool.h"

#include <stdlib.h>
#include <string.h>

bool decimal_number(const char *word, uint32_t *number) {
    if (*word == '#') word++;
    size_t n = strlen(word);
    if (n == 0 || 10 < n || strspn(word, "0123456789") != n) return false;
    unsigned long long x = strtoull(word, NULL, 10);
    if (UINT32_MAX < x) return false;
    *number = (uint32_t)x;
    return true;
}

/* A refusal of a lookup or of the pool, where the caller asked for a slot. */
static int say_refused(const source *s, uint32_t slot, uint32_t number, uint64_t place, const options *o) {
    luo_place counts = luo_counts(number);
    if (o->json) {
        out_json_open(stdout, s->path);
        printf(", \"slot\": %u, ", slot);
        refusal_print_json(stdout, number, place, counts);
        fputs("}\n", stdout);
    } else {
        out_path(stderr, s->path);
        fputs(": ", stderr);
        refusal_print(stderr, s, number, place, counts);
        fputc('\n', stderr);
        refusal_print_place(stderr, s, place, counts);
    }
    return EXIT_REFUSED;
}

static int lookup_slot(const source *s, const pool_of *p, uint32_t slot, const options *o) {
    if (!pool_tag(p, slot)) {
        luo_literal_answer a = entry_refusal(s, p, slot);
        return say_refused(s, slot, a.refusal, a.place, o);
    }
    if (pool_tag(p, slot) == LUO_NAME_AND_TYPE) {
        luo_named_answer a = luo_name_and_type32(s->bytes, s->size, p->table, p->pool.slots, slot);
        if (a.refusal) return say_refused(s, slot, a.refusal, a.place, o);
    }
    if (o->json) {
        out_json_open(stdout, s->path);
        fputs(", \"refusal\": 0, ", stdout);
        entry_print_json(stdout, s, p, slot);
        fputs("}\n", stdout);
    } else {
        printf("#%u ", slot);
        entry_print(stdout, s, p, slot);
        fputc('\n', stdout);
    }
    return EXIT_ACCEPTED;
}

static void list_lines(const source *s, const pool_of *p, uint32_t slot, const uint16_t *list, uint32_t count) {
    printf("#%u ", slot);
    entry_print(stdout, s, p, slot);
    printf("\n%u dependant%s\n", count, count == 1 ? "" : "s");
    for (uint32_t i = 0; i < count; i++) {
        printf("%6u  ", list[i]);
        entry_print(stdout, s, p, list[i]);
        fputc('\n', stdout);
    }
}

static void list_json(const source *s, const pool_of *p, uint32_t slot, const uint16_t *list, uint32_t count) {
    out_json_open(stdout, s->path);
    printf(", \"refusal\": 0, \"slot\": %u, \"dependants\": [", slot);
    for (uint32_t i = 0; i < count; i++) {
        fputs(i ? "," : "", stdout);
        out_break(stdout, 2);
        fputc('{', stdout);
        entry_print_json(stdout, s, p, list[i]);
        fputc('}', stdout);
    }
    fputs("]}\n", stdout);
}

static int dependants_of(const source *s, const pool_of *p, uint32_t slot, const options *o) {
    uint16_t *list = must_allocate(p->pool.slots, sizeof *list);
    luo_list_answer a = luo_dependants32(s->bytes, s->size, p->table, p->pool.slots, slot, list, p->pool.slots);
    int code = EXIT_ACCEPTED;
    if (a.refusal)
        code = say_refused(s, slot, a.refusal, a.place, o);
    else if (o->json)
        list_json(s, p, slot, list, a.count);
    else
        list_lines(s, p, slot, list, a.count);
    free(list);
    return code;
}

typedef int slot_command(const source *s, const pool_of *p, uint32_t slot, const options *o);

static int on_slot(slot_command *run, const char *name, char **words, size_t count, const options *o) {
    uint32_t slot = 0;
    if (count != 2) return usage_of(name, "needs a file and a slot number");
    if (!decimal_number(words[1], &slot)) return usage_of(words[1], "is no slot number (0 to 4294967295)");
    source s;
    pool_of p;
    if (!source_take(&s, words[0], o)) return EXIT_TROUBLE;
    pool_read(&p, &s);
    progress_done();
    int code = p.pool.refusal ? say_refused(&s, slot, p.pool.refusal, p.pool.place, o) : run(&s, &p, slot, o);
    pool_free(&p);
    source_free(&s);
    return code;
}

int lookup_command(char **words, size_t count, const options *o) { return on_slot(lookup_slot, "lookup", words, count, o); }

int dependants_command(char **words, size_t count, const options *o) { return on_slot(dependants_of, "dependants", words, count, o); }
