/* What stands in a slot, by the numbers that the library listed of all slots: written in a line or as the members of a JSON object. */
#include "tool.h"

#include <string.h>

const char *kind_name(uint8_t tag) {
    static const char *const names[] = {
        [LUO_UTF8] = "Utf8",
        [LUO_INTEGER] = "Integer",
        [LUO_FLOAT] = "Float",
        [LUO_LONG] = "Long",
        [LUO_DOUBLE] = "Double",
        [LUO_CLASS] = "Class",
        [LUO_STRING] = "String",
        [LUO_FIELD_REF] = "FieldRef",
        [LUO_METHOD_REF] = "MethodRef",
        [LUO_INTERFACE_METHOD_REF] = "InterfaceMethodRef",
        [LUO_NAME_AND_TYPE] = "NameAndType",
        [LUO_METHOD_HANDLE] = "MethodHandle",
        [LUO_METHOD_TYPE] = "MethodType",
        [LUO_DYNAMIC] = "Dynamic",
        [LUO_INVOKE_DYNAMIC] = "InvokeDynamic",
        [LUO_MODULE] = "Module",
        [LUO_PACKAGE] = "Package",
    };
    return tag < sizeof names / sizeof *names && names[tag] ? names[tag] : "none";
}

static const char *handle_kind(uint32_t kind) {
    static const char *const names[] = {"",           "getField",      "getStatic",        "putField",       "putStatic", "invokeVirtual",
                                        "invokeStatic", "invokeSpecial", "newInvokeSpecial", "invokeInterface"};
    return kind < sizeof names / sizeof *names ? names[kind] : "";
}

luo_literal_answer entry_refusal(const source *s, const pool_of *p, uint32_t slot) {
    return luo_literal32(s->bytes, s->size, p->table, p->pool.slots, slot);
}

/* ---- texts */

typedef struct {
    const uint8_t *bytes;
    size_t length;
    bool raw;
} utf8_of;

/* Whether bytes are raw, asked of the library by a file whose pool is this one entry: in their own time, not in that of the whole pool. */
static bool is_raw(const uint8_t *bytes, size_t length) {
    static uint8_t file[13 + 65535] = {0xCA, 0xFE, 0xBA, 0xBE, 0, 0, 0, 45, 0, 2, LUO_UTF8};
    static const uint32_t table[2] = {0, 10};
    file[11] = (uint8_t)(length >> 8);
    file[12] = (uint8_t)length;
    memcpy(file + 13, bytes, length);
    luo_text_answer a = luo_text32(file, 13 + length, table, 2, 1);
    return !a.refusal && !a.text;
}

static utf8_of utf8_at(const source *s, const pool_of *p, uint32_t slot) {
    if (pool_tag(p, slot) != LUO_UTF8) return (utf8_of){s->bytes, 0, false};
    const uint8_t *bytes = s->bytes + p->firsts[slot];
    return (utf8_of){bytes, p->seconds[slot], is_raw(bytes, p->seconds[slot])};
}

static void put_quoted(FILE *f, utf8_of t) { out_text(f, t.bytes, t.length, t.raw); }

/* A name or a descriptor without its quotes: none of them prints as more than one word. */
void entry_name(FILE *f, const source *s, const pool_of *p, uint32_t slot) {
    utf8_of t = utf8_at(s, p, slot);
    for (size_t i = 0; i < t.length; i++)
        if (t.bytes[i] <= 0x20 || 0x7F <= t.bytes[i] || t.bytes[i] == '"' || t.bytes[i] == '\\') {
            put_quoted(f, t);
            return;
        }
    fwrite(t.bytes, 1, t.length, f);
}

bool entry_is(const source *s, const pool_of *p, uint32_t slot, const char *text) {
    size_t length = strlen(text);
    return pool_tag(p, slot) == LUO_UTF8 && p->seconds[slot] == length && memcmp(s->bytes + p->firsts[slot], text, length) == 0;
}

/* A text as a string; raw bytes, of which JSON has no string, as {"raw": "hex"}. */
void entry_name_json(FILE *f, const source *s, const pool_of *p, uint32_t slot) {
    utf8_of t = utf8_at(s, p, slot);
    if (t.raw) {
        fputs("{\"raw\": \"", f);
        out_hex(f, t.bytes, t.length);
        fputs("\"}", f);
    } else {
        out_json_text(f, t.bytes, t.length);
    }
}

/* The bits of a Long or a Double. */
static uint64_t bits_of(const pool_of *p, uint32_t slot) { return (uint64_t)p->firsts[slot] << 32 | p->seconds[slot]; }

/* ---- a line */

static void named_line(FILE *f, const source *s, const pool_of *p, uint32_t slot) {
    entry_name(f, s, p, p->firsts[slot]);
    fputc(' ', f);
    entry_name(f, s, p, p->seconds[slot]);
}

static void member_line(FILE *f, const source *s, const pool_of *p, uint32_t slot) {
    entry_name(f, s, p, p->firsts[p->firsts[slot]]);
    fputc('.', f);
    named_line(f, s, p, p->seconds[slot]);
}

void entry_value(FILE *f, const source *s, const pool_of *p, uint32_t slot) {
    switch (pool_tag(p, slot)) {
    case LUO_INTEGER: fprintf(f, "%d", (int32_t)p->firsts[slot]); break;
    case LUO_LONG: fprintf(f, "%lld", (long long)(int64_t)bits_of(p, slot)); break;
    case LUO_FLOAT: out_float(f, p->firsts[slot]); break;
    case LUO_DOUBLE: out_double(f, bits_of(p, slot)); break;
    default: put_quoted(f, utf8_at(s, p, p->firsts[slot]));
    }
}

static void literal_line(FILE *f, const source *s, const pool_of *p, uint32_t slot) {
    uint8_t tag = p->tags[slot];
    if (tag == LUO_STRING) fprintf(f, "#%u ", p->firsts[slot]);
    entry_value(f, s, p, slot);
    if (tag == LUO_FLOAT) fprintf(f, "  (bits 0x%08X)", p->firsts[slot]);
    if (tag == LUO_DOUBLE) fprintf(f, "  (bits 0x%016llX)", (unsigned long long)bits_of(p, slot));
}

static void utf8_line(FILE *f, utf8_of t) {
    if (t.raw) fputs("raw ", f);
    put_quoted(f, t);
}

/* What stands behind the kind. The slots that the entry itself names come first. */
static void entry_line(FILE *f, const source *s, const pool_of *p, uint32_t slot) {
    uint32_t first = p->firsts[slot], second = p->seconds[slot];
    switch (p->tags[slot]) {
    case LUO_UTF8: utf8_line(f, utf8_at(s, p, slot)); break;
    case LUO_CLASS:
    case LUO_MODULE:
    case LUO_PACKAGE:
    case LUO_METHOD_TYPE:
        fprintf(f, "#%u ", first);
        entry_name(f, s, p, first);
        break;
    case LUO_FIELD_REF:
    case LUO_METHOD_REF:
    case LUO_INTERFACE_METHOD_REF:
        fprintf(f, "#%u.#%u ", first, second);
        member_line(f, s, p, slot);
        break;
    case LUO_NAME_AND_TYPE:
        fprintf(f, "#%u:#%u ", first, second);
        if (utf8_at(s, p, second).raw)
            fputs("(its descriptor is raw bytes)", f);
        else
            named_line(f, s, p, slot);
        break;
    case LUO_METHOD_HANDLE:
        fprintf(f, "%u %s, #%u %s ", first, handle_kind(first), second, kind_name(pool_tag(p, second)));
        member_line(f, s, p, second);
        break;
    case LUO_DYNAMIC:
    case LUO_INVOKE_DYNAMIC:
        fprintf(f, "bootstrap %u, #%u ", first, second);
        named_line(f, s, p, second);
        break;
    default: literal_line(f, s, p, slot);
    }
}

void entry_print(FILE *f, const source *s, const pool_of *p, uint32_t slot) {
    uint8_t tag = pool_tag(p, slot);
    if (!tag) {
        fputs(slot ? "(second slot of the entry before)" : "(no entry: the pool begins at 1)", f);
        return;
    }
    fprintf(f, "%-18s ", kind_name(tag));
    entry_line(f, s, p, slot);
}

/* ---- JSON */

static void json_named(FILE *f, const source *s, const pool_of *p, const char *what, uint32_t slot) {
    fprintf(f, ", \"%s_slot\": %u, \"%s\": ", what, slot, what);
    entry_name_json(f, s, p, slot);
}

static void json_pair(FILE *f, const source *s, const pool_of *p, uint32_t slot) {
    json_named(f, s, p, "name", p->firsts[slot]);
    json_named(f, s, p, "descriptor", p->seconds[slot]);
}

static void json_member(FILE *f, const source *s, const pool_of *p, uint32_t slot) {
    json_named(f, s, p, "class", p->firsts[p->firsts[slot]]);
    json_pair(f, s, p, p->seconds[slot]);
}

/* A float or a double; what JSON has no number for is a string. */
static void json_float(FILE *f, bool wide, uint64_t bits) {
    bool plain = wide ? is_plain_double(bits) : is_plain_float((uint32_t)bits);
    fputs(plain ? ", \"value\": " : ", \"value\": \"", f);
    if (wide)
        out_double(f, bits);
    else
        out_float(f, (uint32_t)bits);
    if (!plain) fputc('"', f);
}

static void json_literal(FILE *f, const source *s, const pool_of *p, uint32_t slot) {
    uint8_t tag = p->tags[slot];
    bool wide = tag == LUO_LONG || tag == LUO_DOUBLE;
    uint64_t bits = wide ? bits_of(p, slot) : p->firsts[slot];
    if (tag == LUO_STRING) {
        json_named(f, s, p, "value", p->firsts[slot]);
        return;
    }
    if (tag == LUO_INTEGER)
        fprintf(f, ", \"value\": %d", (int32_t)bits);
    else if (tag == LUO_LONG)
        fprintf(f, ", \"value\": %lld", (long long)(int64_t)bits);
    else
        json_float(f, wide, bits);
    fprintf(f, ", \"bits\": \"0x%0*llX\"", wide ? 16 : 8, (unsigned long long)bits);
}

/* The slots that an entry itself names, in the file's order. */
static void json_refers(FILE *f, const pool_of *p, uint32_t slot) {
    uint32_t first = p->firsts[slot], second = p->seconds[slot];
    switch (p->tags[slot]) {
    case LUO_CLASS:
    case LUO_STRING:
    case LUO_METHOD_TYPE:
    case LUO_MODULE:
    case LUO_PACKAGE: fprintf(f, ", \"refers\": [%u]", first); break;
    case LUO_FIELD_REF:
    case LUO_METHOD_REF:
    case LUO_INTERFACE_METHOD_REF:
    case LUO_NAME_AND_TYPE: fprintf(f, ", \"refers\": [%u, %u]", first, second); break;
    case LUO_METHOD_HANDLE:
    case LUO_DYNAMIC:
    case LUO_INVOKE_DYNAMIC: fprintf(f, ", \"refers\": [%u]", second); break;
    default: break;
    }
}

static void json_entry(FILE *f, const source *s, const pool_of *p, uint32_t slot) {
    uint32_t first = p->firsts[slot], second = p->seconds[slot];
    switch (p->tags[slot]) {
    case LUO_UTF8:
        fputs(", \"value\": ", f);
        entry_name_json(f, s, p, slot);
        break;
    case LUO_CLASS:
    case LUO_MODULE:
    case LUO_PACKAGE: json_named(f, s, p, "name", first); break;
    case LUO_METHOD_TYPE: json_named(f, s, p, "descriptor", first); break;
    case LUO_FIELD_REF:
    case LUO_METHOD_REF:
    case LUO_INTERFACE_METHOD_REF: json_member(f, s, p, slot); break;
    case LUO_NAME_AND_TYPE: json_pair(f, s, p, slot); break;
    case LUO_METHOD_HANDLE:
        fprintf(f, ", \"handle_kind\": %u, \"handle\": \"%s\", \"member\": \"%s\"", first, handle_kind(first), kind_name(pool_tag(p, second)));
        json_member(f, s, p, second);
        break;
    case LUO_DYNAMIC:
    case LUO_INVOKE_DYNAMIC:
        fprintf(f, ", \"bootstrap\": %u", first);
        json_pair(f, s, p, second);
        break;
    default: json_literal(f, s, p, slot);
    }
}

void entry_print_json(FILE *f, const source *s, const pool_of *p, uint32_t slot) {
    uint8_t tag = pool_tag(p, slot);
    fprintf(f, "\"slot\": %u, \"kind\": \"%s\"", slot, tag ? kind_name(tag) : slot ? "Unused" : "Zero");
    if (!tag) return;
    fprintf(f, ", \"offset\": %u", p->table[slot]);
    json_refers(f, p, slot);
    json_entry(f, s, p, slot);
}
