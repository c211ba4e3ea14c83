/* The memory that the library is lent, and its answers. */
#include "tool.h"

#include <stdlib.h>

void pool_read(pool_of *p, const source *s) {
    p->table = must_allocate(LUO_MOST_SLOTS, sizeof *p->table);
    p->pool = luo_pool32(s->bytes, s->size, p->table, LUO_MOST_SLOTS);
    size_t slots = p->pool.slots;
    p->tags = must_allocate(slots, sizeof *p->tags);
    p->firsts = must_allocate(slots, sizeof *p->firsts);
    p->seconds = must_allocate(slots, sizeof *p->seconds);
    if (!p->pool.refusal) luo_slots32(s->bytes, s->size, p->table, slots, p->tags, slots, p->firsts, slots, p->seconds, slots);
}

void pool_free(pool_of *p) {
    free(p->table);
    free(p->tags);
    free(p->firsts);
    free(p->seconds);
    *p = (pool_of){0};
}

uint8_t pool_tag(const pool_of *p, uint32_t slot) { return slot < p->pool.slots ? p->tags[slot] : 0; }

void class_read(class_of *c, const source *s) {
    c->block = must_allocate(luo_tables_size(s->size), 1);
    luo_tables_lay(&c->tables, c->block, s->size);
    c->head = luo_class_in(s->bytes, s->size, &c->tables);
}

void class_free(class_of *c) { free(c->block); }
