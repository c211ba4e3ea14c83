/* luohtemik: what an engineer asks of class files, answered by the proved library. */
#include "tool.h"

#include <errno.h>
#include <string.h>

static const char help[] =
    "luohtemik: reads Java class files; every answer is given by a proved library\n"
    "\n"
    "  luohtemik check FILE..            whether each class file is accepted; a folder: the class files below it\n"
    "  luohtemik show FILE               the header, every slot of the pool, interfaces, members, constants, attributes\n"
    "  luohtemik lookup FILE SLOT        what stands in a slot of the pool\n"
    "  luohtemik dependants FILE SLOT    which slots refer to a slot, directly or through others\n"
    "  luohtemik explain [NUMBER]        what a refusal number means, with an example and what mends it; all numbers\n"
    "  luohtemik help, luohtemik version\n"
    "\n"
    "  -            in place of FILE: standard input\n"
    "  --json       the answer as JSON; --jsonl: each object in a line of its own\n"
    "  -q, --quiet  check: nothing on what is accepted; --fail-fast: ends at the first file that is not\n"
    "  -h, --help   this text\n"
    "  -V, --version\n"
    "\n"
    "Exit status: 0 accepted, 1 refused, 2 bad usage or a file that could not be read.\n"
    "A refusal has a number and a place; 'man luohtemik' lists them, and what 'accepted' says.\n";

int usage_of(const char *name, const char *what) {
    fputs("luohtemik: ", stderr);
    out_path(stderr, name);
    fprintf(stderr, " %s\nTry 'luohtemik --help'.\n", what);
    return EXIT_TROUBLE;
}

static int say_help(void) {
    fputs(help, stdout);
    return EXIT_ACCEPTED;
}

static int say_version(bool json) {
    if (json)
        puts("{\"version\": \"" LUO_VERSION "\", \"orders\": \"" LUO_ORDERS "\"}");
    else
        puts("luohtemik " LUO_VERSION "\nrules: those of cafebabe 0.9.0, orders: " LUO_ORDERS);
    return EXIT_ACCEPTED;
}

/* ---- the command line */

static bool is_one_of(const char *word, const char *one, const char *other) { return strcmp(word, one) == 0 || strcmp(word, other) == 0; }

typedef struct {
    options given;
    bool help, version;
} request;

/* Takes a word as an option. */
static bool take_option(request *r, const char *word) {
    if (is_one_of(word, "--json", "--jsonl")) {
        r->given.json = true;
        r->given.lines = r->given.lines || word[6];
    } else if (is_one_of(word, "-q", "--quiet"))
        r->given.quiet = true;
    else if (strcmp(word, "--fail-fast") == 0)
        r->given.fail_fast = true;
    else if (is_one_of(word, "-h", "--help"))
        r->help = true;
    else if (is_one_of(word, "-V", "--version"))
        r->version = true;
    else
        return false;
    return true;
}

typedef int command(char **words, size_t count, const options *o);

static const struct {
    const char *name;
    command *run;
} commands[] = {
    {"check", check_command}, {"show", show_command}, {"lookup", lookup_command}, {"dependants", dependants_command}, {"explain", explain_command},
};

static int run_command(const char *name, char **words, size_t count, const options *o) {
    if (strcmp(name, "check") != 0 && (o->quiet || o->fail_fast)) return usage_of(name, "takes no --quiet and no --fail-fast; check does");
    for (size_t i = 0; i < sizeof commands / sizeof *commands; i++)
        if (strcmp(name, commands[i].name) == 0) return commands[i].run(words, count, o);
    return usage_of(name, "is no command");
}

static int run(int argc, char **argv) {
    request r = {0};
    size_t count = 0;
    bool may_be_option = true;
    for (int i = 1; i < argc; i++) {
        char *word = argv[i];
        if (may_be_option && strcmp(word, "--") == 0)
            may_be_option = false;
        else if (!may_be_option || word[0] != '-' || !word[1])
            argv[count++] = word; /* argv[0] becomes the command: each word moves to the left */
        else if (!take_option(&r, word))
            return usage_of(word, "is no option");
    }
    if (r.help || (count && strcmp(argv[0], "help") == 0)) return say_help();
    if (r.version || (count && strcmp(argv[0], "version") == 0)) return say_version(r.given.json);
    if (count == 0) {
        fputs(help, stderr);
        return EXIT_TROUBLE;
    }
    out_in_lines(r.given.lines);
    return run_command(argv[0], argv + 1, count - 1, &r.given);
}

int main(int argc, char **argv) {
    int code = run(argc, argv);
    if (fflush(stdout) != 0 || ferror(stdout)) {
        fprintf(stderr, "luohtemik: standard output: %s\n", strerror(errno));
        return EXIT_TROUBLE;
    }
    return code;
}
