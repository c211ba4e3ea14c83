/* Texts, bytes and floats, written for a person and as JSON. */
#include "tool.h"

#include <math.h>
#include <stdlib.h>
#include <string.h>

/* The UTF-16 unit that Modified UTF-8 has at `at`, and how many bytes it takes; 0 where none begins there. */
static size_t unit_at(const uint8_t *b, size_t length, size_t at, uint32_t *unit) {
    uint8_t x = b[at];
    if (x < 0x80) {
        *unit = x;
        return 1;
    }
    if ((x & 0xE0) == 0xC0 && at + 1 < length) {
        *unit = (uint32_t)(x & 0x1F) << 6 | (b[at + 1] & 0x3F);
        return 2;
    }
    if ((x & 0xF0) == 0xE0 && at + 2 < length) {
        *unit = (uint32_t)(x & 0x0F) << 12 | (uint32_t)(b[at + 1] & 0x3F) << 6 | (b[at + 2] & 0x3F);
        return 3;
    }
    return 0;
}

static void put_utf8(FILE *f, uint32_t c) {
    if (c < 0x80) {
        fputc((int)c, f);
    } else if (c < 0x800) {
        fputc((int)(0xC0 | c >> 6), f);
        fputc((int)(0x80 | (c & 0x3F)), f);
    } else if (c < 0x10000) {
        fputc((int)(0xE0 | c >> 12), f);
        fputc((int)(0x80 | (c >> 6 & 0x3F)), f);
        fputc((int)(0x80 | (c & 0x3F)), f);
    } else {
        fputc((int)(0xF0 | c >> 18), f);
        fputc((int)(0x80 | (c >> 12 & 0x3F)), f);
        fputc((int)(0x80 | (c >> 6 & 0x3F)), f);
        fputc((int)(0x80 | (c & 0x3F)), f);
    }
}

/* Whether a character does not print, or turns or hides what stands around it: controls, marks of direction, joiners, tags, surrogates. */
static bool is_hidden(uint32_t c) {
    static const struct {
        uint32_t first, last;
    } hidden[] = {{0, 0x1F},          {0x7F, 0x9F},     {0xAD, 0xAD},     {0x61C, 0x61C},   {0x180E, 0x180E},  {0x200B, 0x200F},
                  {0x2028, 0x202E},   {0x2060, 0x206F}, {0xD800, 0xDFFF}, {0xFEFF, 0xFEFF}, {0xFFF9, 0xFFFB},  {0xE0000, 0xE0FFF}};
    for (size_t i = 0; i < sizeof hidden / sizeof *hidden; i++)
        if (hidden[i].first <= c && c <= hidden[i].last) return true;
    return false;
}

/* By its UTF-16 units, as Java and JSON do. */
static void put_escaped(FILE *f, uint32_t c) {
    if (c < 0x10000)
        fprintf(f, "\\u%04X", c);
    else
        fprintf(f, "\\u%04X\\u%04X", 0xD800 + ((c - 0x10000) >> 10), 0xDC00 + ((c - 0x10000) & 0x3FF));
}

/* One character between quotes, escaped the same way for a person and for JSON. */
static void put_character(FILE *f, uint32_t c) {
    switch (c) {
    case '"': fputs("\\\"", f); return;
    case '\\': fputs("\\\\", f); return;
    case '\n': fputs("\\n", f); return;
    case '\r': fputs("\\r", f); return;
    case '\t': fputs("\\t", f); return;
    default: break;
    }
    if (is_hidden(c))
        put_escaped(f, c);
    else
        put_utf8(f, c);
}

static void put_text(FILE *f, const uint8_t *b, size_t length) {
    size_t at = 0;
    while (at < length) {
        uint32_t c = 0, low = 0;
        size_t n = unit_at(b, length, at, &c);
        if (!n) { /* not in a text; be plain about it all the same */
            fprintf(f, "\\u%04X", b[at++]);
            continue;
        }
        at += n;
        if (0xD800 <= c && c < 0xDC00 && at < length) {
            size_t m = unit_at(b, length, at, &low);
            if (m && 0xDC00 <= low && low < 0xE000) {
                at += m;
                c = 0x10000 + ((c - 0xD800) << 10) + (low - 0xDC00);
            }
        }
        put_character(f, c);
    }
}

void out_text(FILE *f, const uint8_t *bytes, size_t length, bool raw) {
    fputc('"', f);
    if (raw)
        for (size_t i = 0; i < length; i++) {
            if (0x20 <= bytes[i] && bytes[i] < 0x7F && bytes[i] != '"' && bytes[i] != '\\')
                fputc(bytes[i], f);
            else
                fprintf(f, "\\x%02X", bytes[i]);
        }
    else
        put_text(f, bytes, length);
    fputc('"', f);
}

void out_json_text(FILE *f, const uint8_t *bytes, size_t length) {
    fputc('"', f);
    put_text(f, bytes, length);
    fputc('"', f);
}

/* ---- paths: bytes that the system does not hold to UTF-8 */

/* The character that UTF-8 has at a byte, and how many bytes it takes; 0 where none begins there. */
static size_t point_at(const uint8_t *b, uint32_t *point) {
    uint8_t x = b[0];
    size_t more = x < 0x80 ? 0 : (x & 0xE0) == 0xC0 ? 1 : (x & 0xF0) == 0xE0 ? 2 : (x & 0xF8) == 0xF0 ? 3 : 4;
    static const uint32_t least[] = {0, 0x80, 0x800, 0x10000};
    if (more == 4) return 0;
    uint32_t c = more ? x & (0x3Fu >> more) : x;
    for (size_t i = 1; i <= more; i++) {
        if ((b[i] & 0xC0) != 0x80) return 0; /* also at the end of the path */
        c = c << 6 | (b[i] & 0x3F);
    }
    if (c < least[more] || 0x10FFFF < c || (0xD800 <= c && c < 0xE000)) return 0;
    *point = c;
    return more + 1;
}

/* Whether a path is UTF-8, and whether all of it prints. */
static bool is_utf8(const char *path, bool *prints) {
    const uint8_t *b = (const uint8_t *)path;
    uint32_t c = 0;
    *prints = *b != '"';
    for (size_t n; *b; b += n) {
        n = point_at(b, &c);
        if (!n) return false;
        if (is_hidden(c)) *prints = false;
    }
    return true;
}

static void put_path(FILE *f, const char *path) {
    const uint8_t *b = (const uint8_t *)path;
    fputc('"', f);
    while (*b) {
        uint32_t c = 0;
        size_t n = point_at(b, &c);
        if (n)
            put_character(f, c);
        else
            fprintf(f, "\\x%02X", *b);
        b += n ? n : 1;
    }
    fputc('"', f);
}

void out_path(FILE *f, const char *path) {
    bool prints = false;
    if (is_utf8(path, &prints) && prints)
        fputs(path, f);
    else
        put_path(f, path);
}

void out_json_path(FILE *f, const char *path) {
    bool prints = false;
    if (is_utf8(path, &prints)) {
        put_path(f, path);
        return;
    }
    fputs("{\"raw\": \"", f);
    out_hex(f, (const uint8_t *)path, strlen(path));
    fputs("\"}", f);
}

static bool in_lines;

void out_in_lines(bool lines) { in_lines = lines; }

void out_break(FILE *f, int spaces) {
    if (in_lines)
        fputc(' ', f);
    else
        fprintf(f, "\n%*s", spaces, "");
}

void out_json_open(FILE *f, const char *path) {
    fputs("{\"path\": ", f);
    out_json_path(f, path);
}

void out_hex(FILE *f, const uint8_t *bytes, size_t length) {
    for (size_t i = 0; i < length; i++) fprintf(f, "%02X", bytes[i]);
}

/* ---- versions */

/* The release of Java that a major version belongs to, written into `name`; empty for none. */
static void java_name(char name[8], uint32_t major) {
    name[0] = 0;
    if (major < 45 || 143 < major) return;
    snprintf(name, 8, major < 49 ? "1.%u" : "%u", (unsigned)(major - 44));
}

void out_version(FILE *f, uint32_t major, uint32_t minor) {
    char name[8];
    java_name(name, major);
    fprintf(f, "%u.%u", major, minor);
    if (name[0]) fprintf(f, " (Java %s%s)", name, 56 <= major && minor == 65535 ? " with preview features" : "");
}

void out_json_version(FILE *f, uint32_t major, uint32_t minor) {
    char name[8];
    java_name(name, major);
    const char *quote = name[0] ? "\"" : "";
    fprintf(f, "\"major\": %u, \"minor\": %u, \"java\": %s%s%s", major, minor, quote, name[0] ? name : "null", quote);
}

/* ---- floats */

bool is_plain_float(uint32_t bits) { return (bits & 0x7F800000u) != 0x7F800000u; }

bool is_plain_double(uint64_t bits) { return (bits & 0x7FF0000000000000u) != 0x7FF0000000000000u; }

/* A number in n digits that count, as a person and JSON write it: with a point, and an exponent only where it is large or small. */
static void put_number(FILE *f, double x, int n) {
    char digits[64];
    snprintf(digits, sizeof digits, "%.*e", n - 1, x);
    int exponent = atoi(strchr(digits, 'e') + 1);
    if (-5 < exponent && exponent < 9) {
        int behind = n - 1 - exponent;
        fprintf(f, "%.*f", behind < 1 ? 1 : behind, x);
    } else {
        fputs(digits, f);
    }
}

static void put_unplain(FILE *f, bool negative, bool nan) { fputs(nan ? "NaN" : negative ? "-Infinity" : "Infinity", f); }

/* The fewest digits that read back as the same finite number; a float's are read back as a float. */
static int fewest_digits(double x, bool single) {
    int most = single ? 9 : 17;
    for (int n = 1; n < most; n++) {
        char digits[64];
        snprintf(digits, sizeof digits, "%.*e", n - 1, x);
        double back = single ? (double)strtof(digits, NULL) : strtod(digits, NULL);
        if (back == x) return n;
    }
    return most;
}

void out_float(FILE *f, uint32_t bits) {
    float x;
    memcpy(&x, &bits, sizeof x);
    if (is_plain_float(bits))
        put_number(f, (double)x, fewest_digits((double)x, true));
    else
        put_unplain(f, bits >> 31, (bits & 0x7FFFFFu) != 0);
}

void out_double(FILE *f, uint64_t bits) {
    double x;
    memcpy(&x, &bits, sizeof x);
    if (is_plain_double(bits))
        put_number(f, x, fewest_digits(x, false));
    else
        put_unplain(f, bits >> 63, (bits & 0xFFFFFFFFFFFFFu) != 0);
}
