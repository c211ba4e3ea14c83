/* Calls every entry point with each slice against memory that cannot be touched (area.h), first behind it, then before it: on a class
   file, on it cut at every byte and with single bytes changed, with exact, short, odd and no room. A fault is told with its call.
   Prints 'N calls, no slice passed' where none came.    guards FILE */
#include "luohtemik.h"

#include "area.h"

#include <signal.h>
#include <string.h>
#include <unistd.h>

enum { LENT = 10, SLOTS = 96 };

static area file, table, lent[LENT];
static unsigned long calls;
static const char *volatile current = "no call";

static void fault(int number) {
    (void)number;
    static const char words[] = "guards: a slice was passed by ";
    if (write(1, words, sizeof words - 1) < 0 || write(1, current, strlen(current)) < 0 || write(1, "\n", 1) < 0) _exit(4);
    _exit(1);
}

/* Every lent slice holds only zeros after a refusal. */
static void zeros(uint32_t refusal, int count) {
    if (!refusal) return;
    for (int i = 0; i < count; i++)
        for (size_t n = 0; n < lent[i].len; n++)
            if (lent[i].at[n]) {
                printf("guards: %s refused with %u and left a number in slice %d\n", current, refusal, i);
                exit(1);
            }
}

static void lend(int i, size_t len, int low) {
    place(&lent[i], len, low);
    memset(lent[i].at, 0xA5, len);
}

#define CALL(name, ...) (current = #name, calls++, name(__VA_ARGS__))
#define NUMBERS16(n) (uint16_t *)(void *)lent[n].at, lent[n].len / 2
#define NUMBERS32(n) (uint32_t *)(void *)lent[n].at, lent[n].len / 4

static void look(uint32_t slot) {
    const uint8_t *f = file.at, *t = table.at;
    size_t n = file.len, m = table.len;
    (void)CALL(luo_literal, f, n, t, m, slot);
    (void)CALL(luo_class_name, f, n, t, m, slot);
    (void)CALL(luo_module_name, f, n, t, m, slot);
    (void)CALL(luo_package_name, f, n, t, m, slot);
    (void)CALL(luo_method_type, f, n, t, m, slot);
    (void)CALL(luo_name_and_type, f, n, t, m, slot);
    (void)CALL(luo_member_reference, f, n, t, m, slot);
    (void)CALL(luo_method_handle, f, n, t, m, slot);
    (void)CALL(luo_dynamic, f, n, t, m, slot);
    (void)CALL(luo_invoke_dynamic, f, n, t, m, slot);
    (void)CALL(luo_text, f, n, t, m, slot);
    (void)CALL(luo_utf8_part, f, n, t, m, slot);
}

/* All calls on the bytes, with room for so many slots, members and attributes. */
static void all(const uint8_t *bytes, size_t len, size_t slots, size_t records, int low, uint32_t step) {
    static const uint8_t width[LENT] = {4, 2, 2, 2, 2, 4, 2, 2, 4, 4};
    place(&file, len, low);
    memcpy(file.at, bytes, len);
    lend(0, 4 * slots + len % 4, low);
    luo_pool_answer p = CALL(luo_pool, file.at, file.len, lent[0].at, lent[0].len);
    zeros(p.refusal, 1);
    place(&table, 4 * (size_t)p.slots + len % 4, low);
    memcpy(table.at, lent[0].at, table.len < lent[0].len ? table.len : lent[0].len);
    for (uint32_t slot = 0; slot <= p.slots; slot += step) {
        look(slot);
        lend(0, len % 7 * 4 + slot % 4, low);
        luo_list_answer d = CALL(luo_dependants, file.at, file.len, table.at, table.len, slot, lent[0].at, lent[0].len);
        zeros(d.refusal, 1);
    }
    lend(0, 4 * slots, low);
    luo_pool_answer e = CALL(luo_entries, file.at, file.len, NUMBERS32(0));
    zeros(e.refusal, 1);
    lend(0, 4 * slots, low);
    for (int i = 1; i < LENT; i++) lend(i, width[i] * records, low);
    luo_class_answer c = CALL(luo_class, file.at, file.len, NUMBERS32(0), NUMBERS16(1), NUMBERS16(2), NUMBERS16(3), NUMBERS16(4), NUMBERS32(5),
                              NUMBERS16(6), NUMBERS16(7), NUMBERS32(8), NUMBERS32(9));
    zeros(c.refusal, LENT);
}

int main(int count, char **words) {
    static uint8_t bytes[65536];
    FILE *f = count == 2 ? fopen(words[1], "rb") : NULL;
    size_t len = f ? fread(bytes, 1, sizeof bytes, f) : 0;
    if (len == 0) {
        fprintf(stderr, "guards FILE: a class file\n");
        return 2;
    }
    signal(SIGSEGV, fault);
    signal(SIGBUS, fault);
    for (int low = 0; low < 2; low++) {
        for (size_t cut = 0; cut <= len; cut++) all(bytes, cut, SLOTS, 32, low, 13);
        for (size_t room = 0; room <= SLOTS; room++) all(bytes, len, room, room % 33, low, 1);
        for (size_t at = 0; at < len; at++) {
            uint8_t was = bytes[at];
            bytes[at] = (uint8_t)(was ^ (1u << at % 8));
            all(bytes, len, SLOTS, 32, low, 29);
            bytes[at] = was;
        }
    }
    printf("%lu calls, no slice passed\n", calls);
    return 0;
}
