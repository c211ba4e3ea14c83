/* Calls every entry point of the library on document 01's files A to P, on wrong tables, odd lengths and empty slices, and compares.
   Prints what differs and 'N checks, M wrong'; exit 0 only where nothing is wrong. */
#include "luohtemik.h"

#include <stdbool.h>
#include <stdio.h>
#include <stdlib.h>
#include <string.h>

static unsigned checks, wrong;

static void expect(bool ok, const char *what, const char *which, unsigned long long got, unsigned long long wanted) {
    checks++;
    if (ok) return;
    wrong++;
    printf("%s: %s is %llu, not %llu\n", which, what, got, wanted);
}

#define SAME(which, got, wanted) expect((got) == (wanted), #got, which, (unsigned long long)(got), (unsigned long long)(wanted))

/* ---- the files */

typedef struct {
    const char *name;
    uint8_t major;
    const char *after; /* hex, after the first eight bytes */
    uint32_t refusal;  /* 0: accepted */
    uint64_t place;
    uint32_t slots;
    const char *table; /* cells, in decimal */
} file_case;

static const file_case cases[] = {
    {"A", 52, "0000", 0, 0, 1, "0"},
    {"B", 52, "0001", 0, 0, 1, "0"},
    {"C", 52, "000203FFFFFFFF", 0, 0, 2, "0 10"},
    {"D", 52, "00020380000000", 0, 0, 2, "0 10"},
    {"E", 52, "000307000201000141", 0, 0, 3, "0 10 13"},
    {"F", 52, "0002070001", 6, 1, 0, ""},
    {"G", 52, "0002070002", 7, 1, 0, ""},
    {"H", 52, "0002070000", 8, 1, 0, ""},
    {"I", 52, "0002050000000000000001", 0, 0, 3, "0 10 0"},
    {"J", 52, "0004050000000000000001080002", 8, 3, 0, ""},
    {"K", 50, "0002100000", 4, 10, 0, ""},
    {"L", 51, "0002100000", 8, 1, 0, ""},
    {"M", 52, "0003080002010003EDA080", 0, 0, 3, "0 10 13"},
    {"N", 52, "0003070002010003EDA080", 9, 1, 0, ""},
    {"O", 52, "00070F01000209000300040700050C00050006010001410100""0149", 0, 0, 7, "0 10 14 19 22 27 31"},
    {"P", 52, "00060A000200030700050C000500040C0005000301000141", 8, 1, 0, ""},
    {"eight bytes alone", 52, "", 2, 8, 0, ""},
};

static size_t hex(const char *text, uint8_t *out) {
    size_t n = 0;
    for (; text[0] && text[1]; text += 2) {
        unsigned x;
        sscanf(text, "%2x", &x);
        out[n++] = (uint8_t)x;
    }
    return n;
}

static size_t make_file(const file_case *c, uint8_t *out) {
    static const uint8_t magic[7] = {0xCA, 0xFE, 0xBA, 0xBE, 0, 0, 0};
    memcpy(out, magic, sizeof magic);
    out[7] = c->major;
    return 8 + hex(c->after, out + 8);
}

static void put_cell(uint8_t *table, size_t i, uint32_t x) {
    table[4 * i] = (uint8_t)(x >> 24);
    table[4 * i + 1] = (uint8_t)(x >> 16);
    table[4 * i + 2] = (uint8_t)(x >> 8);
    table[4 * i + 3] = (uint8_t)x;
}

static uint32_t get_cell(const uint8_t *table, size_t i) {
    return (uint32_t)table[4 * i] << 24 | (uint32_t)table[4 * i + 1] << 16 | (uint32_t)table[4 * i + 2] << 8 | table[4 * i + 3];
}

static size_t cells(const char *text, uint32_t *out) {
    size_t n = 0;
    char *end;
    while (*text) {
        out[n++] = (uint32_t)strtoul(text, &end, 10);
        text = end;
    }
    return n;
}

static bool all_zero(const uint8_t *bytes, size_t n) {
    for (size_t i = 0; i < n; i++)
        if (bytes[i]) return false;
    return true;
}

/* ---- the pool */

/* luo_pool with a table of that many bytes, all ones before: the answer, and the whole table afterwards. */
static void pool_with(const file_case *c, size_t table_len) {
    uint8_t file[64], table[64];
    uint32_t wanted[16];
    size_t size = make_file(c, file), used = cells(c->table, wanted), room = table_len / 4;
    memset(table, 0xFF, sizeof table);
    luo_pool_answer a = luo_pool(file, size, table, table_len);
    bool reads_all = c->refusal == 0 || 5 < c->refusal; /* 5 comes before these, and not before 2 and 4 at an earlier slot */
    size_t needed = c->refusal == 0 ? used : 7;
    if (reads_all && c->refusal == 0 && room < needed) {
        SAME(c->name, a.refusal, 5u);
        SAME(c->name, a.place, room);
        SAME(c->name, a.slots, 0u);
        SAME(c->name, all_zero(table, table_len), true);
    } else if (room >= needed || c->refusal == 2) {
        SAME(c->name, a.refusal, c->refusal);
        SAME(c->name, a.place, c->place);
        SAME(c->name, a.slots, c->slots);
        SAME(c->name, a.major, c->refusal ? 0u : c->major);
        SAME(c->name, a.minor, 0u);
        if (c->refusal) {
            SAME(c->name, all_zero(table, table_len), true);
        } else {
            for (size_t i = 0; i < room; i++) SAME(c->name, get_cell(table, i), i < used ? wanted[i] : 0u);
            SAME(c->name, all_zero(table + 4 * room, table_len % 4), true);
        }
    }
    for (size_t i = table_len; i < sizeof table; i++) SAME(c->name, table[i], 0xFF);
}

/* ---- lookups */

static uint8_t file[64], table[64];
static size_t size, table_len;

static void use(const char *name) {
    for (size_t i = 0; i < sizeof cases / sizeof *cases; i++)
        if (strcmp(cases[i].name, name) == 0) {
            uint32_t wanted[16];
            size = make_file(&cases[i], file);
            size_t n = cells(cases[i].table, wanted);
            for (size_t k = 0; k < n; k++) put_cell(table, k, wanted[k]);
            table_len = 4 * n;
        }
}

#define ASK(call, slot) call(file, size, table, table_len, slot)

/* A lookup of another kind gives 8 at the slot, one past the pool 7; every number is 0, a last one named here. */
#define REFUSES(call, type, slot, number, last)                                                                                            \
    do {                                                                                                                                   \
        type a = ASK(call, slot);                                                                                                          \
        SAME(#call, a.refusal, (uint32_t)(number));                                                                                        \
        SAME(#call, a.place, (uint64_t)(slot));                                                                                            \
        SAME(#call, a.last, 0u);                                                                                                           \
    } while (0)

static void literals(void) {
    luo_literal_answer a;
    use("C");
    a = ASK(luo_literal, 1);
    SAME("C", a.refusal, 0u);
    SAME("C", a.tag, 3u);
    SAME("C", a.bits, 0xFFFFFFFFu);
    use("D");
    a = ASK(luo_literal, 1);
    SAME("D", a.bits, 0x80000000u);
    use("I");
    a = ASK(luo_literal, 1);
    SAME("I", a.tag, 5u);
    SAME("I", a.bits, 1u);
    REFUSES(luo_literal, luo_literal_answer, 2, 8, bits);
    REFUSES(luo_literal, luo_literal_answer, 0, 8, bits);
    REFUSES(luo_literal, luo_literal_answer, 3, 7, bits);
    REFUSES(luo_literal, luo_literal_answer, 4294967295u, 7, bits);
    use("M");
    a = ASK(luo_literal, 1);
    SAME("M", a.tag, 8u);
    SAME("M", a.bits, 2u);
    luo_text_answer t = ASK(luo_text, 2);
    SAME("M", t.refusal, 0u);
    SAME("M", t.text, 0u);
    luo_part_answer p = ASK(luo_utf8_part, 2);
    SAME("M", p.start, 16u);
    SAME("M", p.length, 3u);
    /* a NaN's bits, a negative zero and a Long's two words come back as they are */
    static const struct {
        uint8_t tag;
        const char *after;
        uint64_t bits;
    } values[] = {{4, "0002047FC00001", 0x7FC00001},
                  {4, "000204FF800001", 0xFF800001},
                  {4, "00020480000000", 0x80000000},
                  {6, "0003067FF8000000000001", 0x7FF8000000000001},
                  {6, "000306FFF0000000000002", 0xFFF0000000000002},
                  {6, "0003068000000000000000", 0x8000000000000000},
                  {5, "0003050123456789ABCDEF", 0x0123456789ABCDEF}};
    for (size_t i = 0; i < sizeof values / sizeof *values; i++) {
        file_case c = {"value", 52, values[i].after, 0, 0, 0, ""};
        size = make_file(&c, file);
        luo_pool_answer r = luo_pool(file, size, table, sizeof table);
        table_len = 4 * (size_t)r.slots;
        a = ASK(luo_literal, 1);
        SAME("value", a.refusal, 0u);
        SAME("value", a.tag, values[i].tag);
        SAME("value", a.bits, values[i].bits);
    }
}

static void lookups(void) {
    use("E");
    luo_slot_answer c = ASK(luo_class_name, 1);
    SAME("E", c.refusal, 0u);
    SAME("E", c.slot, 2u);
    luo_text_answer t = ASK(luo_text, 2);
    SAME("E", t.text, 1u);
    luo_part_answer p = ASK(luo_utf8_part, 2);
    SAME("E", p.start, 16u);
    SAME("E", p.length, 1u);
    REFUSES(luo_utf8_part, luo_part_answer, 1, 8, length);
    REFUSES(luo_text, luo_text_answer, 1, 8, text);
    REFUSES(luo_class_name, luo_slot_answer, 2, 8, slot);
    REFUSES(luo_module_name, luo_slot_answer, 1, 8, slot);
    REFUSES(luo_package_name, luo_slot_answer, 1, 8, slot);
    REFUSES(luo_method_type, luo_slot_answer, 1, 8, slot);
    REFUSES(luo_name_and_type, luo_named_answer, 1, 8, descriptor);
    REFUSES(luo_member_reference, luo_member_answer, 1, 8, descriptor);
    REFUSES(luo_method_handle, luo_handle_answer, 1, 8, descriptor);
    REFUSES(luo_dynamic, luo_dynamic_answer, 1, 8, descriptor);
    REFUSES(luo_invoke_dynamic, luo_dynamic_answer, 3, 7, descriptor);
    use("O");
    luo_handle_answer h = ASK(luo_method_handle, 1);
    SAME("O", h.refusal, 0u);
    SAME("O", h.kind, 1u);
    SAME("O", h.tag, 9u);
    SAME("O", h.class_name, 5u);
    SAME("O", h.name, 5u);
    SAME("O", h.descriptor, 6u);
    luo_member_answer m = ASK(luo_member_reference, 2);
    SAME("O", m.tag, 9u);
    SAME("O", m.class_name, 5u);
    SAME("O", m.descriptor, 6u);
    luo_named_answer n = ASK(luo_name_and_type, 4);
    SAME("O", n.name, 5u);
    SAME("O", n.descriptor, 6u);
    /* InvokeDynamic 3, Dynamic 9, MethodType, Module, Package */
    file_case indy = {"indy", 55, "00071200050002" "0C00030004" "0100016E" "010003282956" "100004" "130003", 0, 0, 0, ""};
    size = make_file(&indy, file);
    luo_pool_answer r = luo_pool(file, size, table, sizeof table);
    SAME("indy", r.refusal, 0u);
    SAME("indy", r.slots, 7u);
    table_len = 28;
    luo_dynamic_answer d = ASK(luo_invoke_dynamic, 1);
    SAME("indy", d.refusal, 0u);
    SAME("indy", d.index, 5u);
    SAME("indy", d.name, 3u);
    SAME("indy", d.descriptor, 4u);
    SAME("indy", ASK(luo_method_type, 5).slot, 4u);
    SAME("indy", ASK(luo_module_name, 6).slot, 3u);
    REFUSES(luo_dynamic, luo_dynamic_answer, 1, 8, descriptor);
    file_case condy = {"condy", 55, "00061100070002" "0C00030004" "0100016E" "01000149" "140003", 0, 0, 0, ""};
    size = make_file(&condy, file);
    r = luo_pool(file, size, table, sizeof table);
    SAME("condy", r.refusal, 0u);
    table_len = 4 * (size_t)r.slots;
    SAME("condy", ASK(luo_dynamic, 1).index, 7u);
    SAME("condy", ASK(luo_dynamic, 1).descriptor, 4u);
    SAME("condy", ASK(luo_package_name, 5).slot, 3u);
}

/* The table as it stands now is not the file's, from that cell on. */
static void other_table(const char *which, uint64_t cell) {
    luo_slot_answer a = ASK(luo_class_name, 1);
    SAME(which, a.refusal, 12u);
    SAME(which, a.place, cell);
}

/* A handed table: changed, short, long with zeros, long with more, and a remainder that nobody looks at. */
static void handed_tables(void) {
    use("E");
    luo_slot_answer a;
    put_cell(table, 3, 0);
    put_cell(table, 4, 0);
    table_len = 20;
    SAME("long", ASK(luo_class_name, 1).refusal, 0u);
    put_cell(table, 4, 1);
    other_table("long, not zero", 4);
    table_len = 8;
    other_table("short", 2);
    put_cell(table, 1, 11);
    other_table("changed and short", 1);
    table_len = 0;
    other_table("none", 0);
    use("E");
    for (size_t more = 1; more < 4; more++) {
        table[12 + more - 1] = 0xAB;
        table_len = 12 + more;
        SAME("remainder", ASK(luo_class_name, 1).refusal, 0u);
    }
    /* a long table whose last cell is the only wrong one, past every array inside */
    size_t many = 70000;
    uint8_t *large = calloc(many, 4);
    for (size_t i = 0; i < 3; i++) put_cell(large, i, get_cell(table, i));
    SAME("very long", luo_class_name(file, size, large, 4 * many, 1).refusal, 0u);
    put_cell(large, many - 1, 7);
    a = luo_class_name(file, size, large, 4 * many, 1);
    SAME("very long", a.refusal, 12u);
    SAME("very long", a.place, many - 1);
    free(large);
    /* 2 and 4 come before 12, 12 before 6 */
    use("E");
    table_len = 0;
    size = 15;
    a = ASK(luo_class_name, 1);
    SAME("cut", a.refusal, 2u);
    file_case f = {"F", 52, "0002070001", 0, 0, 0, ""};
    size = make_file(&f, file);
    a = ASK(luo_class_name, 1);
    SAME("self", a.refusal, 12u);
    put_cell(table, 0, 0);
    put_cell(table, 1, 10);
    table_len = 8;
    a = ASK(luo_class_name, 1);
    SAME("self", a.refusal, 6u);
    SAME("self", a.place, 1u);
}

/* ---- dependants */

static void dependants_with(uint32_t slot, size_t list_len, const char *wanted_text) {
    uint8_t list[64];
    uint32_t wanted[16];
    size_t n = cells(wanted_text, wanted), room = list_len / 4;
    memset(list, 0xFF, sizeof list);
    luo_list_answer a = luo_dependants(file, size, table, table_len, slot, list, list_len);
    if (room < n) {
        SAME("dependants", a.refusal, 13u);
        SAME("dependants", a.place, n);
        SAME("dependants", a.count, 0u);
        SAME("dependants", all_zero(list, list_len), true);
    } else {
        SAME("dependants", a.refusal, 0u);
        SAME("dependants", a.place, 0u);
        SAME("dependants", a.count, n);
        for (size_t i = 0; i < room; i++) SAME("dependants", get_cell(list, i), i < n ? wanted[i] : 0u);
        SAME("dependants", all_zero(list + 4 * room, list_len % 4), true);
    }
    for (size_t i = list_len; i < sizeof list; i++) SAME("dependants", list[i], 0xFF);
}

static void dependants(void) {
    for (size_t len = 0; len < 30; len++) {
        use("E");
        dependants_with(2, len, "1");
        dependants_with(1, len, "");
        dependants_with(0, len, "");
        use("O");
        dependants_with(5, len, "1 2 3 4");
        dependants_with(6, len, "1 2 4");
        dependants_with(1, len, "");
    }
    uint8_t list[7];
    memset(list, 0xFF, sizeof list);
    luo_list_answer a = luo_dependants(file, size, table, table_len, 7, list, sizeof list);
    SAME("past the pool", a.refusal, 7u);
    SAME("past the pool", a.place, 7u);
    SAME("past the pool", all_zero(list, sizeof list), true);
}

/* ---- the class */

static void classes(void) {
    /* class A extends B implements none, one field x I, no methods, one attribute Z of 2 bytes */
    uint8_t bytes[128];
    file_case c = {"class", 52, "0009" "070005" "070006" "01000178" "01000149" "01000141" "01000142" "0100015A" "01000159"
                                "0031" "0001" "0002" "0000" "0001" "5FFF" "0003" "0004" "0000" "0000" "0001" "0007" "00000002" "1234",
                   0, 0, 0, ""};
    size_t n = make_file(&c, bytes);
    for (size_t room = 0; room < 3; room++) {
        uint32_t cells_of[12], firsts[2], bodies[2], lengths[2];
        uint16_t interfaces[1], flags[2], names[2], types[2], counts[2], attributes[2];
        memset(cells_of, 0xFF, sizeof cells_of);
        memset(firsts, 0xFF, sizeof firsts);
        memset(bodies, 0xFF, sizeof bodies);
        memset(lengths, 0xFF, sizeof lengths);
        memset(interfaces, 0xFF, sizeof interfaces);
        memset(flags, 0xFF, sizeof flags);
        memset(names, 0xFF, sizeof names);
        memset(types, 0xFF, sizeof types);
        memset(counts, 0xFF, sizeof counts);
        memset(attributes, 0xFF, sizeof attributes);
        luo_class_answer a = luo_class(bytes, n, cells_of, 12, interfaces, 1, flags, 2, names, room, types, 2, firsts, 2, counts, 2,
                                       attributes, 2, bodies, 2, lengths, 2);
        if (room == 0) { /* the shortest column says the room */
            SAME("class", a.refusal, 13u);
            SAME("class", a.place, 8u + 2 + 3 + 3 + 6 * 4 + 10);
            SAME("class", a.slots, 0u);
            SAME("class", all_zero((uint8_t *)cells_of, sizeof cells_of), true);
            SAME("class", all_zero((uint8_t *)firsts, sizeof firsts), true);
            SAME("class", all_zero((uint8_t *)flags, sizeof flags), true);
            SAME("class", all_zero((uint8_t *)bodies, sizeof bodies), true);
            SAME("class", all_zero((uint8_t *)interfaces, sizeof interfaces), true);
            continue;
        }
        SAME("class", a.refusal, 0u);
        SAME("class", a.slots, 9u);
        SAME("class", a.major, 52u);
        SAME("class", a.flags, 0x31u);
        SAME("class", a.this_class, 1u);
        SAME("class", a.super_class, 2u);
        SAME("class", a.interfaces, 0u);
        SAME("class", a.fields, 1u);
        SAME("class", a.methods, 0u);
        SAME("class", a.member_attributes, 0u);
        SAME("class", a.class_attributes, 1u);
        SAME("class", flags[0], 0x50DF);
        SAME("class", names[0], 3);
        SAME("class", types[0], 4);
        SAME("class", firsts[0], 0u);
        SAME("class", counts[0], 0);
        SAME("class", attributes[0], 7);
        SAME("class", bodies[0], n - 2);
        SAME("class", lengths[0], 2u);
        SAME("class", attributes[1], 0);
        SAME("class", cells_of[9], 0u);
        SAME("class", interfaces[0], 0);
    }
}

int main(void) {
    for (size_t i = 0; i < sizeof cases / sizeof *cases; i++)
        for (size_t len = 0; len <= 41; len++) pool_with(&cases[i], len);
    uint8_t nothing[1] = {0};
    luo_pool_answer empty = luo_pool(nothing, 0, nothing, 0);
    SAME("empty file", empty.refusal, 2u);
    SAME("empty file", empty.place, 0u);
    uint8_t *huge = calloc(16777217, 1);
    SAME("too long", luo_pool(huge, 16777217, nothing, 0).refusal, 1u);
    SAME("longest", luo_pool(huge, 16777216, nothing, 0).refusal, 3u);
    free(huge);
    /* entries alone: F is read, and not checked */
    file_case f = {"F", 52, "0002070001", 0, 0, 0, ""};
    size = make_file(&f, file);
    uint32_t native[4];
    memset(native, 0xFF, sizeof native);
    luo_pool_answer read = luo_entries(file, size, native, 3);
    SAME("entries", read.refusal, 0u);
    SAME("entries", read.slots, 2u);
    SAME("entries", native[0], 0u);
    SAME("entries", native[1], 10u);
    SAME("entries", native[2], 0u);
    SAME("entries", native[3], 0xFFFFFFFFu);
    read = luo_entries(file, size, native, 1);
    SAME("entries", read.refusal, 5u);
    SAME("entries", read.place, 1u);
    SAME("entries", native[0], 0u);
    literals();
    lookups();
    handed_tables();
    dependants();
    classes();
    printf("%u checks, %u wrong\n", checks, wrong);
    return wrong ? 1 : 0;
}
