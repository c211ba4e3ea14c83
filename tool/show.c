/* The command 'show': the header, every slot, interfaces, members and attributes of a class. */
#include "tool.h"

typedef struct {
    uint32_t bit;
    const char *name;
} flag;

static const flag class_flags[] = {{0x0001, "public"},    {0x0010, "final"},      {0x0020, "super"}, {0x0200, "interface"}, {0x0400, "abstract"},
                                   {0x1000, "synthetic"}, {0x2000, "annotation"}, {0x4000, "enum"},  {0x8000, "module"},    {0, NULL}};
static const flag field_flags[] = {{0x0001, "public"}, {0x0002, "private"},  {0x0004, "protected"}, {0x0008, "static"}, {0x0010, "final"},
                                   {0x0040, "volatile"}, {0x0080, "transient"}, {0x1000, "synthetic"}, {0x4000, "enum"},   {0, NULL}};
static const flag method_flags[] = {{0x0001, "public"}, {0x0002, "private"},  {0x0004, "protected"}, {0x0008, "static"},
                                    {0x0010, "final"},  {0x0020, "synchronized"}, {0x0040, "bridge"},    {0x0080, "varargs"},
                                    {0x0100, "native"}, {0x0400, "abstract"}, {0x0800, "strict"},    {0x1000, "synthetic"}, {0, NULL}};

static void flags_line(FILE *f, const flag *table, uint32_t flags) {
    fprintf(f, "0x%04X", flags);
    for (; table->name; table++)
        if (flags & table->bit) fprintf(f, " %s", table->name);
}

static void flags_json(FILE *f, const flag *table, uint32_t flags) {
    fprintf(f, "\"flags\": %u, \"flag_names\": [", flags);
    const char *between = "";
    for (; table->name; table++)
        if (flags & table->bit) {
            fprintf(f, "%s\"%s\"", between, table->name);
            between = ", ";
        }
    fputc(']', f);
}

/* ---- the constant of a field */

typedef enum { NO_CONSTANT, MISFIT, CONSTANT } constant_sort;

/* The kind of the constants of fields of a type: 0 for none. */
static uint8_t kind_of_type(const source *s, const pool_of *p, uint32_t type) {
    if (entry_is(s, p, type, "Ljava/lang/String;")) return LUO_STRING;
    if (p->seconds[type] != 1) return 0;
    switch (s->bytes[p->firsts[type]]) {
    case 'J': return LUO_LONG;
    case 'F': return LUO_FLOAT;
    case 'D': return LUO_DOUBLE;
    default: return LUO_INTEGER; /* B C I S Z */
    }
}

/* The slot that a field's ConstantValue names. Whether it has just one, of two bytes, that names a constant of the field's type is not
   judged by the library: the tool shows no other. */
static constant_sort constant_of(const source *s, const pool_of *p, const class_of *c, uint32_t field, uint32_t *slot) {
    uint32_t first = c->tables.firsts[field], found = 0, at = 0;
    for (uint32_t k = first; k < first + c->tables.counts[field]; k++) {
        if (!entry_is(s, p, c->tables.titles[k], "ConstantValue")) continue;
        found++;
        at = k;
    }
    if (!found) return NO_CONSTANT;
    if (found > 1 || c->tables.lengths[at] != 2) return MISFIT;
    const uint8_t *body = s->bytes + c->tables.bodies[at];
    *slot = (uint32_t)body[0] << 8 | body[1];
    uint8_t tag = pool_tag(p, *slot);
    return tag && tag == kind_of_type(s, p, c->tables.types[field]) ? CONSTANT : MISFIT;
}

static void constant_line(FILE *f, const source *s, const pool_of *p, const class_of *c, uint32_t field) {
    uint32_t slot = 0;
    constant_sort sort = constant_of(s, p, c, field, &slot);
    if (sort == MISFIT) fputs(" = none that fits", f);
    if (sort != CONSTANT) return;
    fputs(" = ", f);
    entry_value(f, s, p, slot);
}

static void constant_json(FILE *f, const source *s, const pool_of *p, const class_of *c, uint32_t field) {
    uint32_t slot = 0;
    constant_sort sort = constant_of(s, p, c, field, &slot);
    if (sort == MISFIT) fputs(", \"constant\": null", f);
    if (sort != CONSTANT) return;
    fputs(", \"constant\": {", f);
    entry_print_json(f, s, p, slot);
    fputc('}', f);
}

/* ---- for a person */

static void pool_lines(FILE *f, const source *s, const pool_of *p) {
    fputs("\nPool\n", f);
    for (uint32_t n = 1; n < p->pool.slots; n++) {
        fprintf(f, "%6u  ", n);
        entry_print(f, s, p, n);
        fputc('\n', f);
    }
}

static void class_slot_name(FILE *f, const source *s, const pool_of *p, uint32_t slot) {
    if (pool_tag(p, slot) == LUO_CLASS) entry_name(f, s, p, p->firsts[slot]);
}

static void attribute_lines(FILE *f, const source *s, const pool_of *p, const class_of *c, uint32_t first, uint32_t count) {
    for (uint32_t k = first; k < first + count; k++) {
        fputs("          ", f);
        entry_name(f, s, p, c->tables.titles[k]);
        fprintf(f, ": %u bytes from byte %u\n", c->tables.lengths[k], c->tables.bodies[k]);
    }
}

static void member_lines(FILE *f, const char *title, const flag *flags, const source *s, const pool_of *p, const class_of *c, uint32_t from,
                         uint32_t to) {
    fprintf(f, "\n%s%s\n", title, from < to ? "" : ": none");
    for (uint32_t i = from; i < to; i++) {
        fprintf(f, "%6u  ", i - from);
        entry_name(f, s, p, c->tables.names[i]);
        fputc(' ', f);
        entry_name(f, s, p, c->tables.types[i]);
        fputs("  ", f);
        flags_line(f, flags, c->tables.flags[i]);
        if (flags == field_flags) constant_line(f, s, p, c, i);
        fputc('\n', f);
        attribute_lines(f, s, p, c, c->tables.firsts[i], c->tables.counts[i]);
    }
}

/* The lines on the file before its pool. */
static void head_lines(FILE *f, const source *s, uint32_t major, uint32_t minor, uint32_t slots, const char *more) {
    out_path(f, s->path);
    fprintf(f, "\n  %zu bytes, version ", s->size);
    out_version(f, major, minor);
    fprintf(f, ", %u slots%s\n", slots, more);
}

static void class_lines(FILE *f, const source *s, const pool_of *p, const class_of *c) {
    const luo_class_answer *h = &c->head;
    head_lines(f, s, h->major, h->minor, h->slots, "");
    fputs("  flags ", f);
    flags_line(f, class_flags, h->flags);
    fprintf(f, "\n  this  #%u ", h->this_class);
    class_slot_name(f, s, p, h->this_class);
    if (h->super_class) {
        fprintf(f, "\n  super #%u ", h->super_class);
        class_slot_name(f, s, p, h->super_class);
    } else {
        fputs("\n  super none", f);
    }
    fputc('\n', f);
    for (uint32_t i = 0; i < h->interfaces; i++) {
        fprintf(f, "  interface #%u ", c->tables.interfaces[i]);
        class_slot_name(f, s, p, c->tables.interfaces[i]);
        fputc('\n', f);
    }
    pool_lines(f, s, p);
    member_lines(f, "Fields", field_flags, s, p, c, 0, h->fields);
    member_lines(f, "Methods", method_flags, s, p, c, h->fields, h->fields + h->methods);
    fprintf(f, "\nAttributes%s\n", h->class_attributes ? "" : ": none");
    attribute_lines(f, s, p, c, h->member_attributes, h->class_attributes);
}

/* ---- JSON */

static void pool_json(FILE *f, const source *s, const pool_of *p) {
    fputs("\"pool\": [", f);
    for (uint32_t n = 0; n < p->pool.slots; n++) {
        fputs(n ? "," : "", f);
        out_break(f, 4);
        fputc('{', f);
        entry_print_json(f, s, p, n);
        fputc('}', f);
    }
    out_break(f, 2);
    fputc(']', f);
}

static void class_slot_json(FILE *f, const source *s, const pool_of *p, uint32_t slot) {
    fprintf(f, "{\"slot\": %u, \"name\": ", slot);
    entry_name_json(f, s, p, pool_tag(p, slot) == LUO_CLASS ? p->firsts[slot] : 0);
    fputc('}', f);
}

static void attributes_json(FILE *f, const source *s, const pool_of *p, const class_of *c, uint32_t first, uint32_t count) {
    fputs("\"attributes\": [", f);
    for (uint32_t k = first; k < first + count; k++) {
        fprintf(f, "%s{\"name_slot\": %u, \"name\": ", k == first ? "" : ", ", c->tables.titles[k]);
        entry_name_json(f, s, p, c->tables.titles[k]);
        fprintf(f, ", \"offset\": %u, \"length\": %u}", c->tables.bodies[k], c->tables.lengths[k]);
    }
    fputc(']', f);
}

static void member_json(FILE *f, const flag *flags, const source *s, const pool_of *p, const class_of *c, uint32_t i) {
    fprintf(f, "{\"name_slot\": %u, \"name\": ", c->tables.names[i]);
    entry_name_json(f, s, p, c->tables.names[i]);
    fprintf(f, ", \"descriptor_slot\": %u, \"descriptor\": ", c->tables.types[i]);
    entry_name_json(f, s, p, c->tables.types[i]);
    fputs(", ", f);
    flags_json(f, flags, c->tables.flags[i]);
    if (flags == field_flags) constant_json(f, s, p, c, i);
    fputs(", ", f);
    attributes_json(f, s, p, c, c->tables.firsts[i], c->tables.counts[i]);
    fputc('}', f);
}

static void members_json(FILE *f, const char *title, const flag *flags, const source *s, const pool_of *p, const class_of *c, uint32_t from,
                         uint32_t to) {
    fputc(',', f);
    out_break(f, 2);
    fprintf(f, "\"%s\": [", title);
    for (uint32_t i = from; i < to; i++) {
        fputs(i == from ? "" : ",", f);
        out_break(f, 4);
        member_json(f, flags, s, p, c, i);
    }
    if (from < to) out_break(f, 2);
    fputc(']', f);
}

/* The members "this", "super" and "interfaces". */
static void names_json(FILE *f, const source *s, const pool_of *p, const class_of *c) {
    const luo_class_answer *h = &c->head;
    fputs("\"this\": ", f);
    class_slot_json(f, s, p, h->this_class);
    fputc(',', f);
    out_break(f, 2);
    fputs("\"super\": ", f);
    if (h->super_class)
        class_slot_json(f, s, p, h->super_class);
    else
        fputs("null", f);
    fputc(',', f);
    out_break(f, 2);
    fputs("\"interfaces\": [", f);
    for (uint32_t i = 0; i < h->interfaces; i++) {
        fputs(i ? ", " : "", f);
        class_slot_json(f, s, p, c->tables.interfaces[i]);
    }
    fputs("],", f);
    out_break(f, 2);
}

static void class_json(FILE *f, const source *s, const pool_of *p, const class_of *c) {
    const luo_class_answer *h = &c->head;
    fprintf(f, "\"refusal\": 0, \"slots\": %u, ", h->slots);
    out_json_version(f, h->major, h->minor);
    fputc(',', f);
    out_break(f, 2);
    flags_json(f, class_flags, h->flags);
    fputc(',', f);
    out_break(f, 2);
    names_json(f, s, p, c);
    pool_json(f, s, p);
    members_json(f, "fields", field_flags, s, p, c, 0, h->fields);
    members_json(f, "methods", method_flags, s, p, c, h->fields, h->fields + h->methods);
    fputc(',', f);
    out_break(f, 2);
    attributes_json(f, s, p, c, h->member_attributes, h->class_attributes);
}

/* ---- the command */

/* A refused class: why, and its pool all the same where that is accepted. */
static void refused_json(const source *s, const pool_of *p, const luo_class_answer *h, luo_place counts) {
    refusal_print_json(stdout, h->refusal, h->place, counts);
    if (p->pool.refusal) return;
    fputs(", ", stdout);
    out_json_version(stdout, p->pool.major, p->pool.minor);
    fputc(',', stdout);
    out_break(stdout, 2);
    pool_json(stdout, s, p);
}

static void refused_lines(const source *s, const pool_of *p, const luo_class_answer *h, luo_place counts) {
    out_path(stderr, s->path);
    fputs(": ", stderr);
    refusal_print(stderr, s, h->refusal, h->place, counts);
    fputc('\n', stderr);
    refusal_print_place(stderr, s, h->place, counts);
    if (p->pool.refusal) return;
    head_lines(stdout, s, p->pool.major, p->pool.minor, p->pool.slots, "; the class after its pool is refused");
    pool_lines(stdout, s, p);
}

static void show_json(const source *s, const pool_of *p, const class_of *c, luo_place counts) {
    out_json_open(stdout, s->path);
    printf(", \"bytes\": %zu,", s->size);
    out_break(stdout, 2);
    if (c->head.refusal)
        refused_json(s, p, &c->head, counts);
    else
        class_json(stdout, s, p, c);
    out_break(stdout, 0);
    fputs("}\n", stdout);
}

int show_command(char **words, size_t count, const options *o) {
    if (count != 1) return usage_of("show", "needs one file");
    source s;
    pool_of p;
    class_of c;
    if (!source_take(&s, words[0], o)) return EXIT_TROUBLE;
    pool_read(&p, &s);
    class_read(&c, &s);
    progress_done();
    luo_place counts = luo_class_counts(s.bytes, s.size, c.head.refusal, c.head.place);
    if (o->json)
        show_json(&s, &p, &c, counts);
    else if (c.head.refusal)
        refused_lines(&s, &p, &c.head, counts);
    else
        class_lines(stdout, &s, &p, &c);
    int code = c.head.refusal ? EXIT_REFUSED : EXIT_ACCEPTED;
    class_free(&c);
    pool_free(&p);
    source_free(&s);
    return code;
}
