/* luo_class with its tables in one struct, and how much room a file of a given size can need. The code is C, tested and not proved; that
   the room is enough is proved of the definition that luo_class meets (crates/demands/proofs/Sized.antt).

       luo_tables t;
       void *block = malloc(luo_tables_size(size));
       if (!block) ..
       luo_tables_lay(&t, block, size);
       luo_class_answer c = luo_class_in(file, size, &t);

   After an accepted class t.table is a table for the calls on native numbers: luo_slots32(file, size, t.table, c.slots, ..). */
#ifndef LUOHTEMIK_TABLES_H
#define LUOHTEMIK_TABLES_H

#include "luohtemik.h"

/* With this much room no file of `size` bytes is refused with 5 or 13: an entry of the pool takes three bytes of the file or more for each
   slot, an interface two, a member eight, an attribute six; one more of each is asked for where the file ends too early. */
#define LUO_LEAST_(a, b) ((size_t)(a) < (size_t)(b) ? (size_t)(a) : (size_t)(b))
#define LUO_ROOM_SLOTS(size) LUO_LEAST_((size) / 3 + 2, LUO_MOST_SLOTS)
#define LUO_ROOM_INTERFACES(size) LUO_LEAST_((size) / 2 + 1, 65535)
#define LUO_ROOM_MEMBERS(size) LUO_LEAST_((size) / 8 + 1, 131070)
#define LUO_ROOM_ATTRIBUTES(size) (LUO_LEAST_((size), LUO_MOST_BYTES) / 6 + 1)

typedef struct {
    size_t slots;          /* cells of `table` */
    uint32_t *table;
    size_t interface_room; /* cells of `interfaces` */
    uint16_t *interfaces;
    size_t members;        /* cells of each of the five: the fields, then the methods */
    uint16_t *flags;
    uint16_t *names;
    uint16_t *types;
    uint32_t *firsts;
    uint16_t *counts;
    size_t attributes;     /* cells of each of the three */
    uint16_t *titles;
    uint32_t *bodies;
    uint32_t *lengths;
} luo_tables;

static inline luo_class_answer luo_class_in(const uint8_t *file, size_t size, const luo_tables *t)
{
    return luo_class(file, size, t->table, t->slots, t->interfaces, t->interface_room, t->flags, t->members, t->names, t->members, t->types,
                     t->members, t->firsts, t->members, t->counts, t->members, t->titles, t->attributes, t->bodies, t->attributes, t->lengths,
                     t->attributes);
}

/* The bytes of one block for all tables of a file of that size. */
static inline size_t luo_tables_size(size_t size)
{
    return 4 * (LUO_ROOM_SLOTS(size) + LUO_ROOM_MEMBERS(size) + 2 * LUO_ROOM_ATTRIBUTES(size)) +
           2 * (LUO_ROOM_INTERFACES(size) + 4 * LUO_ROOM_MEMBERS(size) + LUO_ROOM_ATTRIBUTES(size));
}

/* The tables, laid into a block of that many bytes that is good for a uint32_t. */
static inline void luo_tables_lay(luo_tables *t, void *block, size_t size)
{
    uint32_t *w = (uint32_t *)block;
    t->slots = LUO_ROOM_SLOTS(size);
    t->interface_room = LUO_ROOM_INTERFACES(size);
    t->members = LUO_ROOM_MEMBERS(size);
    t->attributes = LUO_ROOM_ATTRIBUTES(size);
    t->table = w;
    t->firsts = t->table + t->slots;
    t->bodies = t->firsts + t->members;
    t->lengths = t->bodies + t->attributes;
    t->interfaces = (uint16_t *)(t->lengths + t->attributes);
    t->flags = t->interfaces + t->interface_room;
    t->names = t->flags + t->members;
    t->types = t->names + t->members;
    t->counts = t->types + t->members;
    t->titles = t->counts + t->members;
}
#endif
