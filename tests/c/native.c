/* Every call on native numbers against its twin on bytes; luo_slots32 against the file's own bytes and against the lookups; luo_class in the
   room of luohtemik_tables.h against slices as long as can be. On small files, on the files that are named, on these cut and changed byte by
   byte, and on large ones; with tables and lists that are exact, longer, shorter and wrong.
     native EVERY FILE ..    cut and changed at every EVERYth byte
   Prints what differs and 'N checks, M wrong'. */
#include "luohtemik_tables.h"

#include <stdbool.h>
#include <stdio.h>
#include <stdlib.h>
#include <string.h>

enum { MOST = LUO_MOST_SLOTS + 4 };

static unsigned long checks, wrong;
static uint8_t file[1 << 20], bytes[4 * MOST], byte_list[4 * MOST], tags[MOST];
static uint32_t cells[MOST], firsts[MOST], seconds[MOST];
static uint16_t list[MOST];
static size_t size;

static void expect(bool ok, const char *what, unsigned long n) {
    checks++;
    if (ok) return;
    if (wrong++ < 20) printf("%s at %lu, file of %zu bytes\n", what, n, size);
}

static uint32_t two(const uint8_t *p) { return (uint32_t)p[0] << 8 | p[1]; }
static uint32_t four(const uint8_t *p) { return two(p) << 16 | two(p + 2); }

/* ---- twins */

#define TWINS(type, call, values)                                                                                       \
    do {                                                                                                                \
        type a = call(file, size, bytes, 4 * room, n), b = call##32(file, size, cells, room, n);                        \
        expect(a.refusal == b.refusal && a.place == b.place && (values), #call, n);                                     \
    } while (0)

static void lookups(size_t room, uint32_t n) {
    TWINS(luo_slot_answer, luo_class_name, a.slot == b.slot);
    TWINS(luo_slot_answer, luo_module_name, a.slot == b.slot);
    TWINS(luo_slot_answer, luo_package_name, a.slot == b.slot);
    TWINS(luo_slot_answer, luo_method_type, a.slot == b.slot);
    TWINS(luo_named_answer, luo_name_and_type, a.name == b.name && a.descriptor == b.descriptor);
    TWINS(luo_member_answer, luo_member_reference, a.tag == b.tag && a.class_name == b.class_name && a.name == b.name && a.descriptor == b.descriptor);
    TWINS(luo_handle_answer, luo_method_handle,
          a.kind == b.kind && a.tag == b.tag && a.class_name == b.class_name && a.name == b.name && a.descriptor == b.descriptor);
    TWINS(luo_dynamic_answer, luo_dynamic, a.index == b.index && a.name == b.name && a.descriptor == b.descriptor);
    TWINS(luo_dynamic_answer, luo_invoke_dynamic, a.index == b.index && a.name == b.name && a.descriptor == b.descriptor);
    TWINS(luo_literal_answer, luo_literal, a.tag == b.tag && a.bits == b.bits);
    TWINS(luo_text_answer, luo_text, a.text == b.text);
    TWINS(luo_part_answer, luo_utf8_part, a.start == b.start && a.length == b.length);
}

static void dependants(size_t room, uint32_t n, size_t k) {
    memset(list, 0xAA, sizeof list);
    memset(byte_list, 0xAA, sizeof byte_list);
    luo_list_answer a = luo_dependants(file, size, bytes, 4 * room, n, byte_list, 4 * k), b = luo_dependants32(file, size, cells, room, n, list, k);
    bool ok = a.refusal == b.refusal && a.place == b.place && a.count == b.count;
    for (size_t i = 0; i < k; i++) ok &= four(byte_list + 4 * i) == list[i];
    for (size_t i = k; i < MOST; i++) ok &= list[i] == 0xAAAA;
    expect(ok, "luo_dependants32", n);
}

static luo_pool_answer pools(size_t k) {
    memset(bytes, 0xAA, sizeof bytes);
    memset(cells, 0xAA, sizeof cells);
    luo_pool_answer a = luo_pool(file, size, bytes, 4 * k), b = luo_pool32(file, size, cells, k);
    bool ok = a.refusal == b.refusal && a.place == b.place && a.slots == b.slots && a.minor == b.minor && a.major == b.major;
    for (size_t i = 0; i < k; i++) ok &= four(bytes + 4 * i) == cells[i];
    for (size_t i = k; i < MOST; i++) ok &= cells[i] == 0xAAAAAAAA;
    expect(ok, "luo_pool32", k);
    return b;
}

/* ---- all slots */

static void listed_slot(uint32_t n) {
    uint32_t c = cells[n], p = firsts[n], q = seconds[n];
    const uint8_t *e = file + c;
    if (!c) {
        expect(!tags[n] && !p && !q, "a slot with no entry", n);
        return;
    }
    expect(tags[n] == e[0], "tag", n);
    switch (e[0]) {
    case LUO_UTF8: expect(p == c + 3 && q == two(e + 1), "Utf8", n); break;
    case LUO_INTEGER:
    case LUO_FLOAT: expect(p == four(e + 1) && !q, "four bytes", n); break;
    case LUO_LONG:
    case LUO_DOUBLE: expect(p == four(e + 1) && q == four(e + 5), "eight bytes", n); break;
    case LUO_METHOD_HANDLE: expect(p == e[1] && q == two(e + 2), "handle", n); break;
    case LUO_CLASS:
    case LUO_STRING:
    case LUO_METHOD_TYPE:
    case LUO_MODULE:
    case LUO_PACKAGE: expect(p == two(e + 1) && !q, "a slot", n); break;
    default: expect(p == two(e + 1) && q == two(e + 3), "two slots", n);
    }
}

/* What the lookups answer of slot n stands in the lists. */
static void as_looked_up(size_t room, uint32_t n) {
    luo_literal_answer l = luo_literal32(file, size, cells, room, n);
    bool wide = tags[n] == LUO_LONG || tags[n] == LUO_DOUBLE;
    if (!l.refusal) expect(l.tag == tags[n] && l.bits == (wide ? (uint64_t)firsts[n] << 32 | seconds[n] : firsts[n]), "literal", n);
    luo_part_answer u = luo_utf8_part32(file, size, cells, room, n);
    if (!u.refusal) expect(tags[n] == LUO_UTF8 && u.start == firsts[n] && u.length == seconds[n], "part", n);
    luo_member_answer m = luo_member_reference32(file, size, cells, room, n);
    if (!m.refusal) expect(m.class_name == firsts[firsts[n]] && m.name == firsts[seconds[n]] && m.descriptor == seconds[seconds[n]], "member", n);
    luo_handle_answer h = luo_method_handle32(file, size, cells, room, n);
    if (!h.refusal) expect(h.kind == firsts[n] && h.tag == tags[seconds[n]] && h.name == firsts[seconds[seconds[n]]], "handle's member", n);
    luo_dynamic_answer d = luo_invoke_dynamic32(file, size, cells, room, n);
    if (!d.refusal) expect(d.index == firsts[n] && d.name == firsts[seconds[n]] && d.descriptor == seconds[seconds[n]], "dynamic", n);
}

static bool zeros(size_t used, size_t x, size_t y, size_t z) {
    bool ok = true;
    for (size_t i = used; i < MOST; i++) ok &= tags[i] == (i < x ? 0 : 0xAA) && firsts[i] == (i < y ? 0 : 0xAAAAAAAA) && seconds[i] == (i < z ? 0 : 0xAAAAAAAA);
    return ok;
}

/* luo_slots32 with a table of `room` cells and lists of x, y and z, where the pool has `slots`. */
static void listing(size_t room, uint32_t slots, size_t x, size_t y, size_t z) {
    memset(tags, 0xAA, sizeof tags);
    memset(firsts, 0xAA, sizeof firsts);
    memset(seconds, 0xAA, sizeof seconds);
    luo_list_answer a = luo_slots32(file, size, cells, room, tags, x, firsts, y, seconds, z);
    luo_text_answer t = luo_text32(file, size, cells, room, 0); /* what is wrong with the table, if anything; else 8 at slot 0 */
    size_t least = x < y ? x : y;
    if (z < least) least = z;
    if (t.refusal != LUO_KIND || t.place)
        expect(a.refusal == t.refusal && a.place == t.place && !a.count, "refusal", a.refusal);
    else if (least < slots)
        expect(a.refusal == LUO_NO_ROOM && a.place == slots && !a.count, "no room", a.refusal);
    else
        expect(!a.refusal && !a.place && a.count == slots, "listed", a.refusal);
    expect(zeros(a.refusal ? 0 : slots, x, y, z), "zeros", slots);
    for (uint32_t n = 0; !a.refusal && n < slots; n++) {
        listed_slot(n);
        if (slots < 400 || n % 9973 == 0) as_looked_up(room, n);
    }
}

/* ---- the class, in one block */

static void one_block(void) {
    enum { MEMBERS = 131070, ATTRIBUTES = 200000 };
    static uint32_t table[65536], starts[MEMBERS], bodies[ATTRIBUTES], lengths[ATTRIBUTES];
    static uint16_t interfaces[65535], flags[MEMBERS], names[MEMBERS], types[MEMBERS], counts[MEMBERS], titles[ATTRIBUTES];
    luo_tables t;
    size_t all = luo_tables_size(size);
    uint8_t *block = malloc(all + 1);
    if (!block) exit(2);
    block[all] = 0x5A;
    luo_tables_lay(&t, block, size);
    luo_class_answer a = luo_class_in(file, size, &t);
    luo_class_answer b = luo_class(file, size, table, 65536, interfaces, 65535, flags, MEMBERS, names, MEMBERS, types, MEMBERS, starts, MEMBERS, counts, MEMBERS,
                                   titles, ATTRIBUTES, bodies, ATTRIBUTES, lengths, ATTRIBUTES);
    size_t m = b.fields + b.methods, r = b.member_attributes + b.class_attributes;
    expect(a.refusal != LUO_NO_CELL && a.refusal != LUO_NO_ROOM, "no room by the size", a.refusal);
    expect(a.refusal == b.refusal && a.place == b.place && a.slots == b.slots && a.interfaces == b.interfaces && a.fields == b.fields && a.methods == b.methods,
           "luo_class_in", a.refusal);
    expect((uint8_t *)(t.titles + t.attributes) == block + all && block[all] == 0x5A, "the block", all);
    expect(!memcmp(t.table, table, 4 * b.slots) && !memcmp(t.interfaces, interfaces, 2 * b.interfaces) && !memcmp(t.flags, flags, 2 * m) &&
               !memcmp(t.names, names, 2 * m) && !memcmp(t.types, types, 2 * m) && !memcmp(t.firsts, starts, 4 * m) && !memcmp(t.counts, counts, 2 * m) &&
               !memcmp(t.titles, titles, 2 * r) && !memcmp(t.bodies, bodies, 4 * r) && !memcmp(t.lengths, lengths, 4 * r),
           "its tables", a.slots);
    free(block);
}

/* ---- a file */

static void all_of_it(bool every) {
    uint32_t count = size < 10 ? 0 : two(file + 8);
    size_t rooms[] = {0, 1, count, count + 1u, MOST};
    one_block();
    for (size_t i = every ? 0 : 4; i < 4; i++) pools(rooms[i]);
    uint32_t s = pools(MOST).slots, step = s < 300 ? 1 : s / 7;
    for (uint32_t n = 0; n < s + 3; n += every ? step : s + 2) lookups(s, n);
    for (uint32_t n = 0; n < s; n += step) dependants(s, n, n % 3 ? MOST : n % 5);
    listing(s, s, s, s, s);
    if (!every) return;
    listing(MOST, s, s + 1, s, s + 2);
    for (size_t less = 1; s && less < 3; less++) {
        listing(s, s, s - 1, s, s);
        listing(s, s, s, s - 1, s);
        listing(s, s, s, s, s - 1);
        listing(s - 1, s, s, s, s);
    }
    if (s < 2) return;
    cells[s / 2]++; /* another file's table */
    for (size_t i = 0; i < s; i++)
        for (int k = 0; k < 4; k++) bytes[4 * i + (size_t)k] = (uint8_t)(cells[i] >> (24 - 8 * k));
    listing(s, s, s, s, s);
    lookups(s, 1);
    dependants(s, 1, MOST);
}

static void hex(uint8_t major, const char *after) {
    static const uint8_t magic[7] = {0xCA, 0xFE, 0xBA, 0xBE, 0, 0, 0};
    memcpy(file, magic, 7);
    file[7] = major;
    for (size = 8; after[0] && after[1]; after += 2) {
        unsigned x;
        sscanf(after, "%2x", &x);
        file[size++] = (uint8_t)x;
    }
    all_of_it(true);
}

static void filled(unsigned entries, uint8_t tag, size_t length) {
    hex(52, "FFFF");
    for (unsigned i = 0; i < entries; i++, size += length) {
        memset(file + size, (int)(i & 0x3F), length);
        file[size] = tag;
        if (tag == LUO_UTF8) file[size + 1] = file[size + 2] = 0;
    }
    all_of_it(true);
}

static void put(unsigned number) {
    file[size++] = (uint8_t)(number >> 8);
    file[size++] = (uint8_t)number;
}

/* A class of interfaces, fields or attributes with as little else as can be, so that the room by its size is nearly used up. */
static void dense(unsigned interfaces, unsigned fields, unsigned attributes) {
    hex(52, "");
    put(4 + fields);
    static const uint8_t entries[] = {LUO_CLASS, 0, 2, LUO_UTF8, 0, 1, 'A', LUO_UTF8, 0, 1, 'I'};
    memcpy(file + size, entries, sizeof entries);
    size += sizeof entries;
    for (unsigned i = 0; i < fields; i++, size += 5) memcpy(file + size, (uint8_t[]){LUO_UTF8, 0, 2, (uint8_t)('a' + i / 26), (uint8_t)('a' + i % 26)}, 5);
    unsigned head[] = {0x21, 1, 0, interfaces};
    for (size_t i = 0; i < 4; i++) put(head[i]);
    for (unsigned i = 0; i < interfaces; i++) put(1);
    put(fields);
    for (unsigned i = 0; i < fields; i++) put(8), put(4 + i), put(3), put(0);
    put(0);
    put(attributes);
    for (unsigned i = 0; i < attributes; i++) put(2), put(0), put(0);
    all_of_it(true);
    luo_tables t;
    void *block = malloc(luo_tables_size(size));
    if (!block) exit(2);
    luo_tables_lay(&t, block, size);
    luo_class_answer a = luo_class_in(file, size, &t);
    expect(!a.refusal && a.interfaces == interfaces && a.fields == fields && a.class_attributes == attributes, "dense", a.refusal);
    free(block);
}

int main(int count, char **words) {
    static uint8_t whole[1 << 20];
    const size_t every = count < 2 ? 0 : strtoul(words[1], NULL, 10);
    if (!every) {
        fputs("native: EVERY, a number from 1 up, and then files\n", stderr);
        return 2;
    }
    dense(0, 0, 0);
    dense(900, 0, 0);
    dense(65535, 0, 0);
    dense(0, 600, 0);
    dense(0, 0, 900);
    dense(0, 0, 65535);
    hex(52, "0000");
    hex(52, "000203FFFFFFFF");
    hex(52, "000307000201000141");
    hex(52, "0002070001");
    hex(52, "0002050000000000000001");
    hex(52, "0003080002010003EDA080");
    hex(52, "00070F01000209000300040700050C000500060100014101000149");
    hex(52, "00030C000200020100""03EDA080");
    hex(55, "000611000000021200010003""0C000400050C00040005010001410100""0149");
    hex(52, "FFFF");
    filled(32767, LUO_DOUBLE, 9);
    filled(65534, LUO_INTEGER, 5);
    filled(65534, LUO_UTF8, 3);
    for (int i = 2; i < count; i++) {
        FILE *f = fopen(words[i], "rb");
        if (!f) return 2;
        size_t length = fread(whole, 1, sizeof whole, f);
        fclose(f);
        memcpy(file, whole, size = length);
        all_of_it(true);
        for (size_t at = 0; at < length; at += every) {
            memcpy(file, whole, size = length);
            file[at] ^= (uint8_t)(1 + at % 255);
            all_of_it(false);
            file[at] = whole[at];
            size = at;
            all_of_it(false);
        }
    }
    printf("%lu checks, %lu wrong\n", checks, wrong);
    return wrong != 0;
}
