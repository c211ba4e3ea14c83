/* Every call on a stack of just the size that luohtemik.h says (LUO_STACK ..), with a page behind it that nothing
   may touch: on small, large and hostile files. What a call takes is seen by the paint that it leaves. Prints the most that each call took,
   by its cells, and 'N calls, M too deep'; a call that is too deep ends the program. */
#define _GNU_SOURCE
#include "luohtemik_tables.h"

#include <signal.h>
#include <stdbool.h>
#include <stdio.h>
#include <stdlib.h>
#include <string.h>
#include <sys/mman.h>
#include <ucontext.h>
#include <unistd.h>

enum { GUARD = 1 << 16, MOST = 1 << 20, OWN = 512 /* of `on_it` below, which passes up to 22 arguments */ };

static uint8_t file[1 << 20], bytes[4 * LUO_MOST_SLOTS], list[4 * LUO_MOST_SLOTS], tags[LUO_MOST_SLOTS];
static uint32_t table[LUO_MOST_SLOTS], firsts[LUO_MOST_SLOTS], seconds[LUO_MOST_SLOTS];
static uint16_t slots16[LUO_MOST_SLOTS];
static size_t size, bytes_len, table_len;
static luo_tables tables;
static uint32_t slot;

/* ---- the calls */

#define BYTES(call) static void on_##call(void) { call(file, size, bytes, bytes_len, slot); }
#define CELLS(call) static void on_##call(void) { call(file, size, table, table_len, slot); }
#define BOTH(call) BYTES(call) CELLS(call##32)
BOTH(luo_literal)
BOTH(luo_class_name)
BOTH(luo_module_name)
BOTH(luo_package_name)
BOTH(luo_method_type)
BOTH(luo_name_and_type)
BOTH(luo_member_reference)
BOTH(luo_method_handle)
BOTH(luo_dynamic)
BOTH(luo_invoke_dynamic)
BOTH(luo_text)
BOTH(luo_utf8_part)
static void on_nothing(void) {}
static void on_luo_pool(void) { luo_pool(file, size, list, sizeof list); }
static void on_luo_pool_few(void) { luo_pool(file, size, list, 4 * 64); }
static void on_luo_pool32(void) { luo_pool32(file, size, firsts, LUO_MOST_SLOTS); }
static void on_luo_entries(void) { luo_entries(file, size, firsts, LUO_MOST_SLOTS); }
static void on_luo_dependants(void) { luo_dependants(file, size, bytes, bytes_len, slot, list, sizeof list); }
static void on_luo_dependants32(void) { luo_dependants32(file, size, table, table_len, slot, slots16, LUO_MOST_SLOTS); }
static void on_luo_slots32(void) {
    luo_slots32(file, size, table, table_len, tags, LUO_MOST_SLOTS, firsts, LUO_MOST_SLOTS, seconds, LUO_MOST_SLOTS);
}
static void on_luo_class(void) { luo_class_in(file, size, &tables); }

typedef enum { NATIVE, ON_BYTES, A_LIST, FEW } sort;

static const struct {
    const char *name;
    void (*run)(void);
    sort sort;
} calls[] = {
#define ENTRY(call, sort) {#call, on_##call, sort}
#define TWO(call) ENTRY(call, ON_BYTES), ENTRY(call##32, NATIVE)
    TWO(luo_literal),
    TWO(luo_class_name),
    TWO(luo_module_name),
    TWO(luo_package_name),
    TWO(luo_method_type),
    TWO(luo_name_and_type),
    TWO(luo_member_reference),
    TWO(luo_method_handle),
    TWO(luo_dynamic),
    TWO(luo_invoke_dynamic),
    TWO(luo_text),
    TWO(luo_utf8_part),
    TWO(luo_pool),
    ENTRY(luo_pool_few, FEW),
    ENTRY(luo_entries, NATIVE),
    ENTRY(luo_dependants, A_LIST),
    ENTRY(luo_dependants32, NATIVE),
    ENTRY(luo_slots32, NATIVE),
    ENTRY(luo_class, NATIVE),
};
enum { CALLS = sizeof calls / sizeof *calls };

/* The cells that a call on bytes has of its own. */
static size_t own_cells(void) {
    size_t count = size < 10 ? 0 : (size_t)file[8] << 8 | file[9];
    return count + 1 < size / 3 ? count + 1 : size / 3;
}

static size_t said(sort s) {
    switch (s) {
    case NATIVE: return LUO_STACK;
    case ON_BYTES: return LUO_STACK_BYTES(own_cells());
    case A_LIST: return LUO_STACK_LIST(own_cells());
    default: return LUO_STACK_BYTES(64);
    }
}

/* ---- a stack of just that size */

static ucontext_t here, there;
static uint8_t *ground; /* GUARD bytes that nothing may touch, then the stack */
static void (*running)(void);
static const char *run_name, *file_name;

static void on_it(void) { running(); }

static void too_deep(int number) {
    (void)number;
    static const char text[] = " needs more stack than the header says\n";
    (void)!write(1, run_name, strlen(run_name));
    (void)!write(1, ", ", 2);
    (void)!write(1, file_name, strlen(file_name));
    (void)!write(1, text, sizeof text - 1);
    _exit(1);
}

/* How much of a stack of `room` bytes is used. */
static size_t used(void (*run)(void), size_t room) {
    uint8_t *low = ground + GUARD;
    memset(low, 0xA5, room);
    running = run;
    getcontext(&there);
    there.uc_stack.ss_sp = low;
    there.uc_stack.ss_size = room;
    there.uc_link = &here;
    makecontext(&there, on_it, 0);
    swapcontext(&here, &there);
    size_t i = 0;
    while (i < room && low[i] == 0xA5) i++;
    return room - i;
}

static size_t most[CALLS], nothing;
static unsigned runs;

static void all_calls(const char *name) {
    file_name = name;
    luo_pool_answer p = luo_pool32(file, size, table, LUO_MOST_SLOTS);
    luo_pool(file, size, bytes, sizeof bytes);
    table_len = p.refusal ? LUO_MOST_SLOTS : p.slots;
    bytes_len = 4 * table_len;
    void *block = malloc(luo_tables_size(size));
    if (!block) exit(2);
    luo_tables_lay(&tables, block, size);
    printf("%s: %zu bytes, %u slots; on bytes %zu\n", name, size, (unsigned)p.slots, (size_t)LUO_STACK_BYTES(own_cells()));
    for (size_t k = 0; k < CALLS; k++)
        for (slot = 0; slot < 9; slot++) {
            run_name = calls[k].name;
            size_t took = used(calls[k].run, said(calls[k].sort) + OWN) - nothing;
            if (most[k] < took) most[k] = took;
            runs++;
        }
    free(block);
}

/* ---- the files */

static void header(unsigned count) {
    static const uint8_t first[8] = {0xCA, 0xFE, 0xBA, 0xBE, 0, 0, 0, 52};
    memcpy(file, first, 8);
    file[8] = (uint8_t)(count >> 8);
    file[9] = (uint8_t)count;
    size = 10;
}

/* Entries of `length` bytes that begin with this tag; of wide ones each makes two slots. */
static void filled(unsigned count, unsigned entries, uint8_t tag, size_t length) {
    header(count);
    for (unsigned i = 0; i < entries; i++, size += length) {
        memset(file + size, 0, length);
        file[size] = tag;
    }
}

static bool taken(const char *path) {
    FILE *f = fopen(path, "rb");
    if (!f) return false;
    size = fread(file, 1, sizeof file, f);
    fclose(f);
    return true;
}

int main(int count, char **words) {
    ground = mmap(NULL, GUARD + MOST, PROT_READ | PROT_WRITE, MAP_PRIVATE | MAP_ANONYMOUS, -1, 0);
    if (ground == MAP_FAILED || mprotect(ground, GUARD, PROT_NONE)) return 2;
    static uint8_t apart[1 << 16];
    sigaltstack(&(stack_t){.ss_sp = apart, .ss_size = sizeof apart}, NULL);
    sigaction(SIGSEGV, &(struct sigaction){.sa_handler = too_deep, .sa_flags = SA_ONSTACK}, NULL);
    file_name = run_name = "nothing";
    nothing = used(on_nothing, 4096);
    size = 0;
    all_calls("an empty file");
    header(0xFFFF);
    all_calls("ten bytes that claim 65,535 slots");
    header(0);
    all_calls("no entries");
    filled(0xFFFF, 300, LUO_INTEGER, 5);
    all_calls("1,510 bytes that claim 65,535 slots");
    filled(64, 63, LUO_INTEGER, 5);
    all_calls("64 slots");
    filled(1025, 1024, LUO_UTF8, 3);
    all_calls("1,025 slots");
    filled(4003, 2001, LUO_DOUBLE, 9);
    all_calls("2,001 doubles");
    filled(0xFFFF, 32767, LUO_LONG, 9);
    all_calls("32,767 longs");
    filled(0xFFFF, 0xFFFE, LUO_UTF8, 3);
    all_calls("65,534 empty texts");
    for (int i = 1; i < count; i++) {
        if (!taken(words[i])) return 2;
        all_calls(words[i]);
        size /= 2;
        all_calls("half of it");
    }
    for (size_t k = 0; k < CALLS; k++) printf("%-24s %7zu\n", calls[k].name, most[k]);
    printf("%u calls, 0 too deep\n", runs);
    return 0;
}
