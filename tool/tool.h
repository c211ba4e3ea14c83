/* What the files of the tool share. The tool holds memory and prints; every judgement is a call of the library. */
#ifndef LUOHTEMIK_TOOL_H
#define LUOHTEMIK_TOOL_H

#include "luohtemik.h"
#include "luohtemik_tables.h"

#include <stdbool.h>
#include <stdint.h>
#include <stdio.h>

/* Exit codes. */
enum { EXIT_ACCEPTED = 0, EXIT_REFUSED = 1, EXIT_TROUBLE = 2 };

/* What the words of the command line ask for beside the command. */
typedef struct {
    bool json;
    bool lines;     /* --jsonl: JSON, each object in a line of its own */
    bool quiet;     /* of check: nothing on what is accepted */
    bool fail_fast; /* of check: ends at the first file that is not accepted */
} options;

/* 'luohtemik: NAME WHAT' on standard error, and how to get help. */
int usage_of(const char *name, const char *what);

/* ---- the commands */

int check_command(char **words, size_t count, const options *o);
int show_command(char **words, size_t count, const options *o);
int lookup_command(char **words, size_t count, const options *o);
int dependants_command(char **words, size_t count, const options *o);
int explain_command(char **words, size_t count, const options *o);
/* A number in decimal, up to 4,294,967,295, with or without '#' before it. */
bool decimal_number(const char *word, uint32_t *number);

/* ---- listing.c: which files */

typedef struct {
    char *path;
    char *trouble; /* why it cannot be looked at; null where nothing is known against it */
    bool found;    /* below a folder, and not named itself */
} item;

/* The class files that are named, and those below the folders that are named, by path. */
typedef struct {
    item *items;
    size_t count, room;
    size_t archives; /* passed over below folders */
} listing;

void listing_make(listing *l, char **names, size_t count);
void listing_free(listing *l);
/* Whether a name ends so, in capitals or not. */
bool ends_with(const char *text, const char *end);
/* Whether a name is that of a jar, a zip or a jmod. */
bool is_archive_name(const char *name);

/* ---- source.c: files */

typedef struct {
    const char *path;
    uint8_t *bytes; /* never null once read */
    size_t size;
} source;

/* Reads a whole file, or its first 16,777,217 bytes, which are enough to see that it is too long. `-` is standard input. One that was found
   in a folder must be a regular file. Null where it was read; else why it was not. */
const char *source_read(source *s, const char *path, bool found);
/* The one file of a command: where it cannot be read, that is said. */
bool source_take(source *s, const char *path, const options *o);
void source_free(source *s);
/* 'luohtemik: PATH: WHY' on standard error. */
void say_trouble(const char *path, const char *why);

void *must_allocate(size_t count, size_t size);

/* ---- progress.c: on a terminal, what has lasted longer than a second */

void progress_begin(size_t total);
/* File number `at` of the total is worked on from here on, .. */
void progress_at(size_t at);
/* .. and no more: the line is free for what is written. */
void progress_done(void);

/* ---- class.c: what the library is lent, and what it answers */

/* A pool: what luo_pool32 says of it, and the tag and two numbers of each slot, as luo_slots32 lists them in one reading. */
typedef struct {
    luo_pool_answer pool;
    uint32_t *table;
    uint8_t *tags; /* one for each slot of an accepted pool */
    uint32_t *firsts, *seconds;
} pool_of;

void pool_read(pool_of *p, const source *s);
void pool_free(pool_of *p);
/* The tag of a slot, 0 for none. */
uint8_t pool_tag(const pool_of *p, uint32_t slot);

typedef struct {
    luo_class_answer head;
    luo_tables tables;
    void *block; /* that they lie in */
} class_of;

void class_read(class_of *c, const source *s);
void class_free(class_of *c);

/* ---- out.c: text and JSON */

/* The bytes of a Utf8 entry: between quotes, in UTF-8, with what does not print or would turn the line escaped; raw bytes as \xHH. */
void out_text(FILE *f, const uint8_t *bytes, size_t length, bool raw);
/* A path: as it is where all of it prints, else between quotes with escapes. */
void out_path(FILE *f, const char *path);
/* A text, a path or a plain string as a JSON value. A path that is not UTF-8 is {"raw": "HEX"}. */
void out_json_text(FILE *f, const uint8_t *bytes, size_t length);
void out_json_path(FILE *f, const char *path);
/* '{"path": ..': how each JSON object on a file begins. */
void out_json_open(FILE *f, const char *path);
/* Inside a JSON object: a new line with that many spaces; one space where each object has one line (out_in_lines). */
void out_break(FILE *f, int spaces);
void out_in_lines(bool lines);
void out_hex(FILE *f, const uint8_t *bytes, size_t length);
/* A float or a double by its bits, in the fewest digits that give the same bits back. */
void out_float(FILE *f, uint32_t bits);
void out_double(FILE *f, uint64_t bits);
bool is_plain_float(uint32_t bits);
bool is_plain_double(uint64_t bits);
/* '61.0 (Java 17)', and the members "major", "minor" and "java" of a JSON object. */
void out_version(FILE *f, uint32_t major, uint32_t minor);
void out_json_version(FILE *f, uint32_t major, uint32_t minor);

/* ---- entry.c: what stands in a slot */

const char *kind_name(uint8_t tag);
/* One line on a slot, without the slot's number: its kind, the slots that it names and its value. */
void entry_print(FILE *f, const source *s, const pool_of *p, uint32_t slot);
/* The value of an Integer, a Float, a Long, a Double or a String. */
void entry_value(FILE *f, const source *s, const pool_of *p, uint32_t slot);
/* The members of a JSON object on a slot. */
void entry_print_json(FILE *f, const source *s, const pool_of *p, uint32_t slot);
/* The text in a Utf8 slot, bare, for a name in a line. */
void entry_name(FILE *f, const source *s, const pool_of *p, uint32_t slot);
void entry_name_json(FILE *f, const source *s, const pool_of *p, uint32_t slot);
/* Whether a Utf8 slot has just these bytes. */
bool entry_is(const source *s, const pool_of *p, uint32_t slot, const char *text);
/* Why the library does not answer a lookup of that slot. */
luo_literal_answer entry_refusal(const source *s, const pool_of *p, uint32_t slot);

/* ---- refusal.c */

/* 'refused with 9 at slot 12: ..' */
void refusal_print(FILE *f, const source *s, uint32_t number, uint64_t place, luo_place counts);
/* The lines under it: the bytes around the place, or the slot's entry. */
void refusal_print_place(FILE *f, const source *s, uint64_t place, luo_place counts);
/* The members "refusal", "place", "counts" and "sentence" of a JSON object. */
void refusal_print_json(FILE *f, uint32_t number, uint64_t place, luo_place counts);

#endif
