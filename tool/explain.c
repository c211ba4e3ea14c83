/* The command 'explain': what a refusal number means, a file that is refused so, and what mends it. */
#include "tool.h"

#include <string.h>

typedef struct {
    const char *example; /* a file in hex; null where it is too long to show */
    const char *call;    /* where the file alone is not refused: the call that refuses. Null for a file that 'check' refuses. */
    const char *says;    /* what is wrong with it, with number and place */
    const char *mends;
} explanation;

#define HEAD "CAFEBABE 0000 0034 "
#define SMALL "070005 070006 01000178 01000149 01000141 01000142 0100015A 01000159 0031 0001 0002 0000 "

static const explanation explanations[LUO_LEFT_OVER + 1] = {
    {0},
    {NULL, NULL, "any file of 16,777,217 bytes or more is refused with 1 at byte 0",
     "See whether it is one class file: an archive is unpacked first, and no compiler writes a class that long."},
    {"CAFEBABE 0000 0034", NULL, "refused with 2 at byte 8: there the pool's count should stand, and the file ends",
     "The file was cut, or a count or length in it is too large: compile or copy it again, and compare its size."},
    {"FEEDFACE 0000 0034 0001", NULL, "refused with 3 at byte 0",
     "Name a class file. One that begins with 50 4B is a jar or a zip, and is unpacked first."},
    {"CAFEBABE 0000 0032 0002 100000", NULL, "refused with 4 at byte 10: tag 16 (MethodType) is known from version 51 on, and this is version 50",
     "No compiler writes this entry into this version: the version (bytes 4 to 7) or the entry was changed. Compile it again for the "
     "version that is wanted (javac --release)."},
    {HEAD "0002 010000", "luo_pool32 with a table of 1 cell", "refused with 5 at slot 1: the pool has slots 0 and 1",
     "Lend more cells: LUO_ROOM_SLOTS(size) of luohtemik_tables.h is always enough. The tool always lends enough."},
    {HEAD "0002 070001", NULL, "refused with 6 at slot 1: the Class in slot 1 says that its name stands in slot 1",
     "No compiler writes this: let what made or changed the file write the number of the slot that is meant."},
    {HEAD "0002 070002", NULL, "refused with 7 at slot 1: the Class in slot 1 names slot 2, and the pool has slots 0 and 1",
     "The number is wrong, or the pool's count (bytes 8 and 9) is too small. A Long and a Double take two slots each: count both."},
    {HEAD "0004 050000000000000001 080002", NULL, "refused with 8 at slot 3: the String names slot 2, the second slot of the Long in slot 1",
     "Name a slot of the kind that is needed; 'luohtemik show' lists the kinds of an accepted pool. A Long and a Double take two slots, and "
     "nothing names the second."},
    {HEAD "0003 070002 010003EDA080", NULL, "refused with 9 at slot 1: the name of the Class is ED A0 80, half of a surrogate pair",
     "Write names and descriptors in Modified UTF-8: no byte 00, no byte from F0 up, surrogates only in pairs. A String may hold such bytes."},
    {HEAD "0003 070002 010003612E62", NULL, "refused with 10 at slot 1: the name of the Class is a.b",
     "Inside a class file the parts of a name are joined by '/': a/b. A name has no '.', ';' or '[', and none of its parts is empty."},
    {HEAD "0003 070002 0100025B56", NULL, "refused with 11 at slot 1: [V is no array, since V is no type of a field",
     "Write the descriptor as the grammar has it: B C D F I J S Z, L..; with '/' in the name, [ before an element, (..) before what a "
     "method returns, V for nothing."},
    {HEAD "0002 010000", "luo_text32 of slot 1 with the table {0, 11}", "refused with 12 at cell 1: slot 1 begins at byte 10",
     "Hand in the table that luo_pool32 or luo_class left for these same bytes, with as many cells as the answer has slots."},
    {HEAD "0007 0F010002 0900030004 070005 0C00050006 01000141 01000149", "luo_dependants32 of slot 5 with a list of 3 cells",
     "refused with 13, 4 cells needed: slots 1, 2, 3 and 4 depend on slot 5",
     "Lend as many cells as the place says. For luo_class, luohtemik_tables.h says how much room is always enough. The tool always lends "
     "enough."},
    {HEAD "0009 " SMALL "0002 5FFF 0003 0004 0000 0001 0003 0004 0000 0000 0000", NULL, "refused with 14 at byte 58: the field x of type I a second time",
     "Remove or rename one of the two. Members of one name need different descriptors."},
    {HEAD "0005 070002 01000141 0100063C696E69743E 010003282949 0021 0001 0000 0000 0000 0001 0001 0003 0004 0000 0000", NULL,
     "refused with 15 at byte 44: <init> with the descriptor ()I",
     "<init> and <clinit> return nothing (V), and from version 51 on <clinit> takes nothing. Rename the method or mend its descriptor."},
    {HEAD "0007 1200000002 0C00030004 01000166 010003282956 070006 01000141 0021 0005 0000 0000 0000 0000 0000", NULL,
     "refused with 16 at slot 1: an InvokeDynamic, and the class has no BootstrapMethods",
     "What took the attribute out (a shrinker, an editor) must keep it; a class has one BootstrapMethods, not two."},
    {HEAD "0008 1200000002 0C00030004 01000166 010003282956 070006 01000141 010010426F6F7473747261704D6574686F6473 "
          "0021 0005 0000 0000 0000 0000 0001 0007 00000002 0000",
     NULL, "refused with 17 at slot 1: it names bootstrap method 0, and BootstrapMethods has none",
     "The index counts from 0 and is below the number of methods in BootstrapMethods: mend the index, or bring the method back."},
    {HEAD "0009 " SMALL "0001 5FFF 0003 0004 0000 0000 0001 0007 00000002 1234 00", NULL, "refused with 18 at byte 70: the class ends after byte 69",
     "Cut what stands behind the class. Of a BootstrapMethods, whose first byte the place then is: mend its length or its counts."},
};

/* What the place is, in words of its own. */
static const char *where(uint32_t number) { return strcmp(luo_where(number), "as 7") == 0 ? luo_where(LUO_RANGE) : luo_where(number); }

static void print_json(uint32_t number) {
    const explanation *e = &explanations[number];
    printf("{\"refusal\": %u, \"sentence\": ", number);
    out_json_path(stdout, luo_sentence(number));
    fputs(", \"where\": ", stdout);
    out_json_path(stdout, where(number));
    fputs(", \"example\": ", stdout);
    if (e->example)
        out_json_path(stdout, e->example);
    else
        fputs("null", stdout);
    if (e->call) {
        fputs(", \"call\": ", stdout);
        out_json_path(stdout, e->call);
    }
    fputs(", \"says\": ", stdout);
    out_json_path(stdout, e->says);
    fputs(", \"mends\": ", stdout);
    out_json_path(stdout, e->mends);
    fputc('}', stdout);
}

/* A title, then words in lines of at the most 100 characters. */
static void print_words(const char *title, const char *words) {
    size_t used = 0;
    printf("  %-9s", title);
    while (*words) {
        size_t n = strcspn(words, " ");
        if (used && 88 < used + n) {
            fputs("\n           ", stdout);
            used = 0;
        }
        printf("%s%.*s", used ? " " : "", (int)n, words);
        used += n + 1;
        words += n + (words[n] == ' ');
    }
    fputc('\n', stdout);
}

static void print_lines(uint32_t number) {
    const explanation *e = &explanations[number];
    printf("%u: %s\n", number, luo_sentence(number));
    print_words("place", where(number));
    if (e->example) print_words("example", e->example);
    if (e->call) print_words("call", e->call);
    print_words(e->example ? "" : "example", e->says);
    print_words("mend it", e->mends);
}

static void print_all(const options *o) {
    bool array = o->json && !o->lines;
    if (array) fputs("[\n", stdout);
    for (uint32_t n = 1; n <= LUO_LEFT_OVER; n++) {
        if (o->json)
            print_json(n);
        else
            printf("%2u: %s", n, luo_sentence(n));
        fputs(array && n < LUO_LEFT_OVER ? ",\n" : "\n", stdout);
    }
    if (array) fputs("]\n", stdout);
}

int explain_command(char **words, size_t count, const options *o) {
    uint32_t number = 0;
    if (count > 1 || (count && (!decimal_number(words[0], &number) || number < 1 || LUO_LEFT_OVER < number)))
        return usage_of("explain", "needs a refusal number, 1 to 18, or none");
    if (!count) {
        print_all(o);
    } else if (o->json) {
        print_json(number);
        fputc('\n', stdout);
    } else {
        print_lines(number);
    }
    return EXIT_ACCEPTED;
}
