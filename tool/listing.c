/* Which files are meant: those named, and the class files below the folders named. */
#define _XOPEN_SOURCE 700
#include "tool.h"

#include <dirent.h>
#include <errno.h>
#include <stdlib.h>
#include <string.h>
#include <strings.h>
#include <sys/stat.h>

bool ends_with(const char *text, const char *end) {
    size_t n = strlen(text), k = strlen(end);
    return k <= n && strcasecmp(text + n - k, end) == 0;
}

bool is_archive_name(const char *name) { return ends_with(name, ".jar") || ends_with(name, ".zip") || ends_with(name, ".jmod"); }

static void *must_grow(void *memory, size_t count, size_t size) {
    void *more = realloc(memory, count * size);
    if (!more) {
        fprintf(stderr, "luohtemik: no memory for %zu paths\n", count);
        exit(EXIT_TROUBLE);
    }
    return more;
}

static char *must_copy(const char *text) { return strcpy(must_allocate(strlen(text) + 1, 1), text); }

static void listing_add(listing *l, const char *path, const char *trouble, bool found) {
    if (l->count == l->room) {
        l->room = l->room ? 2 * l->room : 64;
        l->items = must_grow(l->items, l->room, sizeof *l->items);
    }
    l->items[l->count++] = (item){must_copy(path), trouble ? must_copy(trouble) : NULL, found};
}

/* ---- names */

typedef struct {
    char **names;
    size_t count, room;
} names_of;

static void names_add(names_of *n, char *name) {
    if (n->count == n->room) {
        n->room = n->room ? 2 * n->room : 64;
        n->names = must_grow(n->names, n->room, sizeof *n->names);
    }
    n->names[n->count++] = name;
}

static void names_free(names_of *n) {
    for (size_t i = 0; i < n->count; i++) free(n->names[i]);
    free(n->names);
}

static char *joined(const char *folder, const char *name) {
    size_t n = strlen(folder);
    char *path = must_allocate(n + strlen(name) + 2, 1);
    strcpy(path, folder);
    if (n && folder[n - 1] != '/') path[n++] = '/';
    strcpy(path + n, name);
    return path;
}

/* ---- the folders that were looked into: each once, however many links lead to it */

typedef struct {
    struct {
        dev_t device;
        ino_t number;
        bool used;
    } *cells;
    size_t count, room; /* room: a power of two */
} known_of;

/* The cell of a folder, or the free one where it belongs. */
static size_t known_cell(const known_of *k, dev_t device, ino_t number) {
    size_t at = ((size_t)number * 31 + (size_t)device) & (k->room - 1);
    while (k->cells[at].used && (k->cells[at].device != device || k->cells[at].number != number)) at = (at + 1) & (k->room - 1);
    return at;
}

static void known_grow(known_of *k) {
    known_of more = {.count = k->count, .room = k->room ? 2 * k->room : 64};
    more.cells = must_allocate(more.room, sizeof *more.cells);
    for (size_t i = 0; i < k->room; i++)
        if (k->cells[i].used) more.cells[known_cell(&more, k->cells[i].device, k->cells[i].number)] = k->cells[i];
    free(k->cells);
    *k = more;
}

/* Whether the folder is new; it is known from then on. */
static bool known_add(known_of *k, const struct stat *st) {
    if (k->room <= 2 * k->count) known_grow(k);
    size_t at = known_cell(k, st->st_dev, st->st_ino);
    if (k->cells[at].used) return false;
    k->cells[at].device = st->st_dev;
    k->cells[at].number = st->st_ino;
    k->cells[at].used = true;
    k->count++;
    return true;
}

/* ---- a folder */

typedef struct {
    listing *l;
    known_of known;
    names_of links; /* to folders: followed last, so that a folder has its own path where it has one below the folder named */
} walk_of;

/* What stands in a folder. Null where all of it was read; else why not. */
static const char *folder_names(const char *folder, names_of *n) {
    DIR *d = opendir(folder);
    if (!d) return strerror(errno);
    for (;;) {
        errno = 0;
        struct dirent *e = readdir(d);
        if (!e) break;
        if (strcmp(e->d_name, ".") != 0 && strcmp(e->d_name, "..") != 0) names_add(n, joined(folder, e->d_name));
    }
    const char *why = errno ? strerror(errno) : NULL;
    closedir(d);
    return why;
}

static void walk_folder(walk_of *w, const char *folder);

static void walk_path(walk_of *w, const char *path) {
    struct stat st;
    bool wanted = ends_with(path, ".class");
    if (lstat(path, &st) != 0) {
        listing_add(w->l, path, strerror(errno), true);
        return;
    }
    bool link = S_ISLNK(st.st_mode);
    if (link && stat(path, &st) != 0) {
        if (wanted) listing_add(w->l, path, strerror(errno), true);
        return;
    }
    if (S_ISDIR(st.st_mode) && link)
        names_add(&w->links, must_copy(path));
    else if (S_ISDIR(st.st_mode))
        walk_folder(w, path);
    else if (wanted)
        listing_add(w->l, path, NULL, true);
    else if (is_archive_name(path))
        w->l->archives++;
}

static void walk_folder(walk_of *w, const char *folder) {
    struct stat st;
    names_of n = {0};
    const char *why = NULL;
    if (stat(folder, &st) != 0)
        why = strerror(errno);
    else if (!known_add(&w->known, &st))
        return;
    else
        why = folder_names(folder, &n);
    if (why) listing_add(w->l, folder, why, true);
    for (size_t i = 0; i < n.count; i++) walk_path(w, n.names[i]);
    names_free(&n);
}

static int by_path(const void *a, const void *b) { return strcmp(((const item *)a)->path, ((const item *)b)->path); }

static int by_name(const void *a, const void *b) { return strcmp(*(char *const *)a, *(char *const *)b); }

static void listing_folder(listing *l, const char *folder) {
    walk_of w = {.l = l};
    size_t first = l->count, archives = l->archives;
    walk_folder(&w, folder);
    for (size_t from = 0; from < w.links.count;) { /* a folder behind a link may have links too */
        size_t to = w.links.count;
        qsort(w.links.names + from, to - from, sizeof *w.links.names, by_name);
        for (; from < to; from++) {
            char *link = w.links.names[from]; /* the list moves while it grows */
            walk_folder(&w, link);
        }
    }
    names_free(&w.links);
    free(w.known.cells);
    if (first == l->count) {
        bool packed = archives < l->archives;
        if (packed) l->archives = archives;
        listing_add(l, folder, packed ? "no class file is there, but an archive is: unpack it first" : "no class file is there", true);
    }
    qsort(l->items + first, l->count - first, sizeof *l->items, by_path);
}

void listing_make(listing *l, char **names, size_t count) {
    *l = (listing){0};
    for (size_t i = 0; i < count; i++) {
        struct stat st;
        if (strcmp(names[i], "-") != 0 && stat(names[i], &st) == 0 && S_ISDIR(st.st_mode))
            listing_folder(l, names[i]);
        else
            listing_add(l, names[i], NULL, false);
    }
}

void listing_free(listing *l) {
    for (size_t i = 0; i < l->count; i++) {
        free(l->items[i].path);
        free(l->items[i].trouble);
    }
    free(l->items);
}
