/* The command 'check': whether each file is accepted. */
#include "tool.h"

typedef struct {
    size_t accepted, refused, unread, left_out;
} tally;

typedef struct {
    const options *o;
    tally t;
    bool first; /* no object was written yet */
} checking;

/* What stands before and behind each JSON object on a file. */
static void open_object(checking *k, const char *path) {
    if (!k->o->lines) {
        fputs(k->first ? "" : ",", stdout);
        out_break(stdout, 4);
    }
    k->first = false;
    out_json_open(stdout, path);
    fputs(", ", stdout);
}

static void close_object(const checking *k) {
    fputc('}', stdout);
    if (!k->o->lines) return;
    fputc('\n', stdout);
    fflush(stdout); /* each line as it comes */
}

static void say_unread(checking *k, const char *path, const char *why) {
    k->t.unread++;
    say_trouble(path, why);
    if (!k->o->json) return;
    open_object(k, path);
    fputs("\"error\": ", stdout);
    out_json_path(stdout, why);
    close_object(k);
}

static void say_accepted(checking *k, const char *path, const luo_class_answer *h) {
    k->t.accepted++;
    if (k->o->quiet) return;
    if (!k->o->json) {
        out_path(stdout, path);
        fputs(": accepted, version ", stdout);
        out_version(stdout, h->major, h->minor);
        printf(", slots %u, fields %u, methods %u\n", h->slots, h->fields, h->methods);
        return;
    }
    open_object(k, path);
    fputs("\"refusal\": 0, ", stdout);
    out_json_version(stdout, h->major, h->minor);
    printf(", \"slots\": %u, \"fields\": %u, \"methods\": %u", h->slots, h->fields, h->methods);
    close_object(k);
}

static void say_refused(checking *k, const source *s, const luo_class_answer *h) {
    luo_place counts = luo_class_counts(s->bytes, s->size, h->refusal, h->place);
    k->t.refused++;
    if (!k->o->json) {
        out_path(stdout, s->path);
        fputs(": ", stdout);
        refusal_print(stdout, s, h->refusal, h->place, counts);
        fputc('\n', stdout);
        return;
    }
    open_object(k, s->path);
    refusal_print_json(stdout, h->refusal, h->place, counts);
    close_object(k);
}

static void check_one(checking *k, const item *i, size_t number) {
    source s;
    class_of c;
    if (i->trouble) {
        say_unread(k, i->path, i->trouble);
        return;
    }
    progress_at(number);
    const char *why = source_read(&s, i->path, i->found);
    if (why) {
        progress_done();
        say_unread(k, i->path, why);
        return;
    }
    class_read(&c, &s);
    progress_done();
    if (c.head.refusal)
        say_refused(k, &s, &c.head);
    else
        say_accepted(k, i->path, &c.head);
    class_free(&c);
    source_free(&s);
}

static void say_tally(const checking *k) {
    const tally *t = &k->t;
    if (k->o->json) {
        if (k->o->lines) {
            fputc('{', stdout);
        } else {
            out_break(stdout, 2);
            fputs("],", stdout);
            out_break(stdout, 2);
        }
        printf("\"accepted\": %zu, \"refused\": %zu, \"unread\": %zu", t->accepted, t->refused, t->unread);
        if (k->o->fail_fast) printf(", \"left_out\": %zu", t->left_out);
        fputs("}\n", stdout);
    } else if (!k->o->quiet) {
        printf("%zu accepted, %zu refused, %zu not read", t->accepted, t->refused, t->unread);
        if (k->o->fail_fast) printf(", %zu left out", t->left_out);
        fputc('\n', stdout);
    }
}

int check_command(char **words, size_t count, const options *o) {
    if (count == 0) return usage_of("check", "needs one or more files or folders");
    listing l;
    progress_begin(1);
    progress_at(0);
    listing_make(&l, words, count);
    progress_done();
    checking k = {.o = o, .first = true};
    if (o->json && !o->lines) fputs("{\"files\": [", stdout);
    progress_begin(l.count);
    for (size_t i = 0; i < l.count; i++) {
        check_one(&k, &l.items[i], i);
        if (!o->fail_fast || k.t.refused + k.t.unread == 0) continue;
        k.t.left_out = l.count - 1 - i;
        break;
    }
    say_tally(&k);
    if (l.archives && !o->quiet)
        fprintf(stderr, "luohtemik: %zu archive%s below the folders: unpack %s to check what is inside\n", l.archives,
                l.archives == 1 ? "" : "s", l.archives == 1 ? "it" : "them");
    listing_free(&l);
    return k.t.unread ? EXIT_TROUBLE : k.t.refused ? EXIT_REFUSED : EXIT_ACCEPTED;
}
