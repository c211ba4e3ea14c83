/* Luohtemik: reading Java class files with proved calls.
 *
 * Every call below ends, whatever bytes it is given, with an answer or with one numbered refusal and its place. Nothing has to be checked
 * first, nothing is allocated, nothing is kept between calls, and no call writes outside the memory that it is lent.
 *
 * How to call
 *   - A slice is a pointer and a length. The pointer must be good for that length while the call runs; with length 0 it may be null, as
 *     C++ hands in an empty vector. What is lent for writing overlaps nothing else that is lent to the same call.
 *   - A file is 0 to 16,777,216 bytes; a longer one is refused with 1.
 *   - On bytes, a table or a list has four bytes a cell, the highest first. A remainder of 1 to 3 bytes is no cell: it is not looked at
 *     where the table is handed in, and is zero afterwards where it is lent for writing.
 *   - Each answer is a struct of numbers, by value. `refusal` is 0 where the call accepted, and 1 to 18 where it refused; `place` says
 *     where. After a refusal every other number of the answer is 0, and every table lent for writing holds only zeros. luo_sentence says
 *     a refusal in words, luo_where what its place is, luo_counts and luo_class_counts whether that place is a byte, a slot or a cell.
 *   - What is lent for writing is made zero first, all of it, used or not, and that costs time: the pool of a small class is read twenty
 *     times as fast into the cells that it needs as into 65,536. luohtemik_tables.h says how many a file of a given size can need.
 *   - Stack: every call on native numbers (luo_entries, luo_class and those whose names end in 32) takes at the most LUO_STACK bytes, on
 *     every file. A call on bytes has cells of its own too: see LUO_STACK_BYTES below.
 *
 * What accepted says
 *     Accepted means that the pool with all its references and texts, the header, the members and the framing of every attribute follow
 *     the rules, and so do the contents of BootstrapMethods; the contents of all other attributes, code and ConstantValue among them, are
 *     not judged, so that a class which a JVM refuses may be accepted.
 *
 * What a loader may take from a pool
 *     Not a table from the Doubles of a pool: `double[] CURVE = {0.0, 1.0, 2.0, 2.0, 3.5}` leaves 2.0 and 3.5 there, since a compiler
 *     writes 0.0, 1.0 and small ints as instructions, and equal values once. What is sure is a `static final` constant: its field has an
 *     attribute ConstantValue, whose two bytes are the slot of its value. examples/constants.c reads a table of such constants.
 *
 * A first use
 *     uint32_t table[1024];
 *     luo_pool_answer p = luo_pool32(file, size, table, 1024);
 *     if (p.refusal) { fprintf(stderr, "refused: %u at %llu\n", p.refusal, (unsigned long long)p.place); return 1; }
 *     luo_literal_answer v = luo_literal32(file, size, table, p.slots, 7);
 *     if (!v.refusal && v.tag == LUO_DOUBLE) { double d; memcpy(&d, &v.bits, sizeof d); .. }
 *
 * The library is x86-64 ELF, on whatever processor it was made, and asks nothing of its host but memset. Calls keep no state: they may
 * run in threads side by side, each with its own memory to write into. Link with -lluohtemik (pkg-config luohtemik).
 */
#ifndef LUOHTEMIK_H
#define LUOHTEMIK_H

#include <stddef.h>
#include <stdint.h>

/* The version of the library: the one place that says it (CHANGELOG.md tells what each brought); and the orders that changed the rules
   since those of cafebabe 0.9.0, by their numbers (docs/orders/). */
#define LUO_VERSION "0.1.0"
#define LUO_ORDERS "none"

#ifdef __cplusplus
extern "C" {
#endif

/* The refusals; luo_sentence says each in words. */
enum {
    LUO_ACCEPTED = 0,
    LUO_TOO_LONG = 1,
    LUO_END = 2,
    LUO_MAGIC = 3,
    LUO_UNKNOWN_TAG = 4,
    LUO_NO_CELL = 5,
    LUO_SELF = 6,
    LUO_RANGE = 7,
    LUO_KIND = 8,
    LUO_RAW = 9,
    LUO_NAME = 10,
    LUO_DESCRIPTOR = 11,
    LUO_OTHER_TABLE = 12,
    LUO_NO_ROOM = 13,
    LUO_DUPLICATE = 14,
    LUO_SHAPE = 15,
    LUO_BOOTSTRAP_COUNT = 16,
    LUO_BOOTSTRAP_INDEX = 17,
    LUO_LEFT_OVER = 18
};

/* A refusal in one sentence. README.md, the man page and docs/RULES.md have the same. */
static inline const char *luo_sentence(uint32_t refusal)
{
    static const char *const sentences[] = {
        "accepted",
        "the file is longer than 16,777,216 bytes",
        "the file ends inside what is read from here on",
        "the file does not begin with CA FE BA BE, so it is no class file",
        "a tag or a handle kind that this version of class files does not know",
        "the pool table has no cell for this slot",
        "the entry names itself",
        "a slot number that is past the pool's last slot",
        "the slot that is named or asked for is not of a kind that is allowed here",
        "bytes that are no text (Modified UTF-8), where a text is needed",
        "a text that is no name of the kind that is needed here",
        "a text that is no descriptor of the kind that is needed here",
        "the handed table is not the one that this file gives",
        "no room in what is lent for this record or list",
        "a field or method of the same name and descriptor stands before",
        "<init> or <clinit> with a descriptor that it must not have",
        "the class needs exactly one BootstrapMethods attribute for this entry",
        "the bootstrap index is not below the number of bootstrap methods",
        "bytes are left over after the end of the class, or a BootstrapMethods attribute has another length than its contents",
    };
    return refusal < sizeof sentences / sizeof *sentences ? sentences[refusal] : "a refusal that this header does not know";
}

/* What the place of a refusal is. README.md and the man page have the same. */
static inline const char *luo_where(uint32_t refusal)
{
    static const char as_7[] = "as 7";
    static const char *const wheres[] = {
        "none",
        "byte 0",
        "the byte where that read began",
        "byte 0",
        "the byte of the tag or of the kind",
        "that slot",
        "the entry's slot",
        "in the pool the entry's slot, after the pool the byte of the number, in a lookup the slot asked for",
        as_7,
        as_7,
        as_7,
        as_7,
        "the first cell that differs; the number of cells where the table is too short",
        "the record's first byte; of a list the number of cells that it needs",
        "the member's first byte",
        "the member's first byte",
        "the slot of the Dynamic or InvokeDynamic",
        "the slot of the Dynamic or InvokeDynamic",
        "the first byte left over; the first byte of the attribute",
    };
    return refusal < sizeof wheres / sizeof *wheres ? wheres[refusal] : "a place that this header does not know";
}

/* What a place counts: bytes of the file, slots of the pool, cells of the handed table, or the cells that a list needs. */
typedef enum { LUO_BYTE, LUO_SLOT, LUO_CELL, LUO_NEEDED } luo_place;

/* .. in an answer of every call but luo_class: of 1 to 4 it is a byte, of 5 to 11 a slot, of 12 a cell, of 13 the cells needed. */
static inline luo_place luo_counts(uint32_t refusal)
{
    if (refusal == LUO_OTHER_TABLE) return LUO_CELL;
    if (refusal == LUO_NO_ROOM) return LUO_NEEDED;
    return LUO_NO_CELL <= refusal && refusal <= LUO_DESCRIPTOR ? LUO_SLOT : LUO_BYTE;
}

/* .. in an answer of luo_class on this file: of 5, 6, 16 and 17 it is a slot, of 7 to 11 a slot in the pool and a byte after it, of all
   others a byte. The two cannot be taken for each other: a slot is no more than the count in bytes 8 and 9, and a byte after the pool is,
   since an entry has three bytes or more for each of its slots. */
static inline luo_place luo_class_counts(const uint8_t *file, size_t file_len, uint32_t refusal, uint64_t place)
{
    if (refusal == LUO_NO_CELL || refusal == LUO_SELF || refusal == LUO_BOOTSTRAP_COUNT || refusal == LUO_BOOTSTRAP_INDEX) return LUO_SLOT;
    if (refusal < LUO_RANGE || LUO_DESCRIPTOR < refusal || file_len < 10) return LUO_BYTE;
    return place <= ((uint64_t)file[8] << 8 | file[9]) ? LUO_SLOT : LUO_BYTE;
}

/* The tags of pool entries. */
enum {
    LUO_UTF8 = 1,
    LUO_INTEGER = 3,
    LUO_FLOAT = 4,
    LUO_LONG = 5,
    LUO_DOUBLE = 6,
    LUO_CLASS = 7,
    LUO_STRING = 8,
    LUO_FIELD_REF = 9,
    LUO_METHOD_REF = 10,
    LUO_INTERFACE_METHOD_REF = 11,
    LUO_NAME_AND_TYPE = 12,
    LUO_METHOD_HANDLE = 15,
    LUO_METHOD_TYPE = 16,
    LUO_DYNAMIC = 17,
    LUO_INVOKE_DYNAMIC = 18,
    LUO_MODULE = 19,
    LUO_PACKAGE = 20
};

/* No file that is read is longer, and no pool has more slots. */
#define LUO_MOST_BYTES 16777216u
#define LUO_MOST_SLOTS 65536u

/* The stack that a call takes at the most on x86-64, below its caller's frame. LUO_STACK: a call on native numbers, whatever the file. On bytes
   it is LUO_STACK_BYTES(cells), and of luo_dependants LUO_STACK_LIST(cells), where `cells` is the lesser of the count that the file claims,
   plus one, and of its bytes divided by 3; of luo_pool also no more than its table has cells. A file under 1 KB: LUO_STACK_BYTES(341),
   6,144 bytes; any file: LUO_STACK_BYTES(LUO_MOST_SLOTS). */
#define LUO_STACK 2048u
#define LUO_CELLS_(n) \
    ((n) <= 1024 ? 1024u : (n) <= 2048 ? 3072u : (n) <= 4096 ? 5120u : (n) <= 8192 ? 9216u : (n) <= 16384 ? 17408u : (n) <= 32768 ? 33792u : 66560u)
#define LUO_STACK_BYTES(cells) (LUO_STACK + 4 * LUO_CELLS_(cells))
#define LUO_STACK_LIST(cells) (LUO_STACK + 6 * LUO_CELLS_(cells))

/* ---- the pool */

typedef struct {
    uint32_t refusal;
    uint64_t place;
    uint32_t slots; /* P: how many slots the pool makes, slot 0 included */
    uint32_t minor;
    uint32_t major;
} luo_pool_answer;

/* Reads and checks the pool of a file, and nothing after it. Cell n of the table becomes the file offset of slot n's tag byte, and 0 for
   slot 0, for the second slot of a Long or Double, and past the last slot. */
luo_pool_answer luo_pool(const uint8_t *file, size_t file_len, uint8_t *table, size_t table_len);

/* ---- lookups: in the pool of a file, with the table that luo_pool left, the slot that is asked for.
   A table that is not the file's is refused with 12; a slot past the pool with 7, one of another kind with 8. */

typedef struct {
    uint32_t refusal;
    uint64_t place;
    uint32_t tag;  /* LUO_INTEGER, LUO_FLOAT, LUO_LONG, LUO_DOUBLE or LUO_STRING */
    uint64_t bits; /* the file's bits, those of an Integer or a Float in the low 32; of a String the Utf8 slot that it names */
} luo_literal_answer;

luo_literal_answer luo_literal(const uint8_t *file, size_t file_len, const uint8_t *table, size_t table_len, uint32_t slot);

typedef struct {
    uint32_t refusal;
    uint64_t place;
    uint32_t slot; /* the Utf8 slot of the name, or of the method type's descriptor */
} luo_slot_answer;

luo_slot_answer luo_class_name(const uint8_t *file, size_t file_len, const uint8_t *table, size_t table_len, uint32_t slot);
luo_slot_answer luo_module_name(const uint8_t *file, size_t file_len, const uint8_t *table, size_t table_len, uint32_t slot);
luo_slot_answer luo_package_name(const uint8_t *file, size_t file_len, const uint8_t *table, size_t table_len, uint32_t slot);
luo_slot_answer luo_method_type(const uint8_t *file, size_t file_len, const uint8_t *table, size_t table_len, uint32_t slot);

typedef struct {
    uint32_t refusal;
    uint64_t place;
    uint32_t name;       /* Utf8 slots */
    uint32_t descriptor;
} luo_named_answer;

/* A NameAndType. Where its descriptor is raw, 9. */
luo_named_answer luo_name_and_type(const uint8_t *file, size_t file_len, const uint8_t *table, size_t table_len, uint32_t slot);

typedef struct {
    uint32_t refusal;
    uint64_t place;
    uint32_t tag;        /* LUO_FIELD_REF, LUO_METHOD_REF or LUO_INTERFACE_METHOD_REF */
    uint32_t class_name; /* Utf8 slots */
    uint32_t name;
    uint32_t descriptor;
} luo_member_answer;

luo_member_answer luo_member_reference(const uint8_t *file, size_t file_len, const uint8_t *table, size_t table_len, uint32_t slot);

typedef struct {
    uint32_t refusal;
    uint64_t place;
    uint32_t kind;       /* 1 to 9 */
    uint32_t tag;        /* of the member that it holds, and the member, as luo_member_answer */
    uint32_t class_name;
    uint32_t name;
    uint32_t descriptor;
} luo_handle_answer;

luo_handle_answer luo_method_handle(const uint8_t *file, size_t file_len, const uint8_t *table, size_t table_len, uint32_t slot);

typedef struct {
    uint32_t refusal;
    uint64_t place;
    uint32_t index;      /* into the class's bootstrap methods */
    uint32_t name;       /* Utf8 slots */
    uint32_t descriptor;
} luo_dynamic_answer;

luo_dynamic_answer luo_dynamic(const uint8_t *file, size_t file_len, const uint8_t *table, size_t table_len, uint32_t slot);
luo_dynamic_answer luo_invoke_dynamic(const uint8_t *file, size_t file_len, const uint8_t *table, size_t table_len, uint32_t slot);

typedef struct {
    uint32_t refusal;
    uint64_t place;
    uint32_t text; /* 1 where the bytes of the Utf8 entry are text (Modified UTF-8), 0 where they are raw */
} luo_text_answer;

luo_text_answer luo_text(const uint8_t *file, size_t file_len, const uint8_t *table, size_t table_len, uint32_t slot);

typedef struct {
    uint32_t refusal;
    uint64_t place;
    uint64_t start;  /* the bytes of the Utf8 entry: file[start], .., length of them */
    uint64_t length;
} luo_part_answer;

luo_part_answer luo_utf8_part(const uint8_t *file, size_t file_len, const uint8_t *table, size_t table_len, uint32_t slot);

/* ---- dependants */

typedef struct {
    uint32_t refusal;
    uint64_t place;
    uint32_t count; /* how many cells of the list are used */
} luo_list_answer;

/* Every slot that reaches the slot asked for along one or more references, each once, rising, four bytes a cell; zeros after them.
   Where there are more than the list has cells: 13, and `place` is the number needed. */
luo_list_answer luo_dependants(const uint8_t *file, size_t file_len, const uint8_t *table, size_t table_len, uint32_t slot, uint8_t *list,
                               size_t list_len);

/* ---- on native numbers: a table is 32-bit cells, a list of slots 16-bit, and lengths count numbers, not bytes.
   The answers are those of the calls above; the table that luo_class leaves can be handed in as it is. */

luo_pool_answer luo_pool32(const uint8_t *file, size_t file_len, uint32_t *table, size_t table_len);

/* Reads the entries of the pool alone, with nothing of them checked, and the table as luo_pool32 does: where a refused slot stands. */
luo_pool_answer luo_entries(const uint8_t *file, size_t file_len, uint32_t *table, size_t table_len);

luo_slot_answer luo_class_name32(const uint8_t *file, size_t file_len, const uint32_t *table, size_t table_len, uint32_t slot);
luo_slot_answer luo_module_name32(const uint8_t *file, size_t file_len, const uint32_t *table, size_t table_len, uint32_t slot);
luo_slot_answer luo_package_name32(const uint8_t *file, size_t file_len, const uint32_t *table, size_t table_len, uint32_t slot);
luo_slot_answer luo_method_type32(const uint8_t *file, size_t file_len, const uint32_t *table, size_t table_len, uint32_t slot);
luo_named_answer luo_name_and_type32(const uint8_t *file, size_t file_len, const uint32_t *table, size_t table_len, uint32_t slot);
luo_member_answer luo_member_reference32(const uint8_t *file, size_t file_len, const uint32_t *table, size_t table_len, uint32_t slot);
luo_handle_answer luo_method_handle32(const uint8_t *file, size_t file_len, const uint32_t *table, size_t table_len, uint32_t slot);
luo_dynamic_answer luo_dynamic32(const uint8_t *file, size_t file_len, const uint32_t *table, size_t table_len, uint32_t slot);
luo_dynamic_answer luo_invoke_dynamic32(const uint8_t *file, size_t file_len, const uint32_t *table, size_t table_len, uint32_t slot);
luo_literal_answer luo_literal32(const uint8_t *file, size_t file_len, const uint32_t *table, size_t table_len, uint32_t slot);
luo_text_answer luo_text32(const uint8_t *file, size_t file_len, const uint32_t *table, size_t table_len, uint32_t slot);
luo_part_answer luo_utf8_part32(const uint8_t *file, size_t file_len, const uint32_t *table, size_t table_len, uint32_t slot);
luo_list_answer luo_dependants32(const uint8_t *file, size_t file_len, const uint32_t *table, size_t table_len, uint32_t slot,
                                 uint16_t *list, size_t list_len);

/* Every slot in one reading of the pool. Of slot n: tags[n], 0 for slot 0 and the second slot of a Long or Double, and two numbers:
     LUO_UTF8                                     the first byte of its bytes in the file, how many they are
     LUO_INTEGER, LUO_FLOAT                       its bits, 0
     LUO_LONG, LUO_DOUBLE                         its higher 32 bits, its lower
     LUO_CLASS, LUO_STRING, LUO_METHOD_TYPE,
     LUO_MODULE, LUO_PACKAGE                      the Utf8 slot that it names, 0
     LUO_FIELD_REF .. LUO_INTERFACE_METHOD_REF    the slots of its Class and of its NameAndType
     LUO_NAME_AND_TYPE                            the Utf8 slots of its name and of its descriptor
     LUO_METHOD_HANDLE                            its kind, the slot that it holds
     LUO_DYNAMIC, LUO_INVOKE_DYNAMIC              its index into the bootstrap methods, the slot of its NameAndType
   `count` is the number of slots. A list with fewer cells than there are slots: 13, at the number of slots. */
luo_list_answer luo_slots32(const uint8_t *file, size_t file_len, const uint32_t *table, size_t table_len, uint8_t *tags, size_t tags_len,
                            uint32_t *firsts, size_t firsts_len, uint32_t *seconds, size_t seconds_len);

/* The whole class. */

typedef struct {
    uint32_t refusal;
    uint64_t place;
    uint32_t slots;
    uint32_t minor;
    uint32_t major;
    uint32_t flags;       /* the bits 0xF631 of the class's access flags */
    uint32_t this_class;  /* pool slots; super_class is 0 where there is none */
    uint32_t super_class;
    uint32_t interfaces;  /* how many there are */
    uint32_t fields;
    uint32_t methods;
    uint32_t member_attributes;
    uint32_t class_attributes;
} luo_class_answer;

/* Reads and checks the whole file. `table` as in luo_pool, but native 32-bit numbers. `interfaces` takes the slots of the interfaces.
   Fields, then methods, are records in five slices: `flags` (masked 0x50DF or 0x1DFF), `names` and `types` (the slots of name and
   descriptor), `firsts` (the number of the first attribute record), `counts` (the number of attributes). Attributes are records in three
   slices, in file order, the class's own last: `titles` (the slot of the name), `bodies` (the offset of the body), `lengths`. Where the
   slices of one record differ in length, the shortest says how many records there is room for. Cells past those used are zero. */
luo_class_answer luo_class(const uint8_t *file, size_t file_len, uint32_t *table, size_t table_len, uint16_t *interfaces,
                           size_t interfaces_len, uint16_t *flags, size_t flags_len, uint16_t *names, size_t names_len, uint16_t *types,
                           size_t types_len, uint32_t *firsts, size_t firsts_len, uint16_t *counts, size_t counts_len, uint16_t *titles,
                           size_t titles_len, uint32_t *bodies, size_t bodies_len, uint32_t *lengths, size_t lengths_len);

#ifdef __cplusplus
}
#endif

#endif
