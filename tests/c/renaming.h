/*
 * What the C programs on renamed pivots and edges share: the calls, into destinations between bytes
 * that must not change.
 */
#ifndef RENAMING_H
#define RENAMING_H

#include "table.h"

static inline uint8_t *fresh_records(void)
{
    return refill(cut_room->pivots, sizeof cut_room->pivots);
}

/* A call that writes records answers how many. */
static inline void records_left(const char *name, uint32_t got, uint64_t number, uint32_t wanted,
                                slice written)
{
    result(name, got, number, wanted, written.length / JD_RECORD_SIZE);
    count(holds(cut_room->pivots, sizeof cut_room->pivots, written), name);
}

/* A left key and a right element. */
typedef struct {
    slice left, right;
} range;

/* An old prefix and a new one. */
typedef struct {
    slice old, new;
} prefixes;

/* A range under another prefix. */
static inline void moved(const char *name, range r, prefixes p, size_t dest, uint32_t wanted,
                         slice written)
{
    uint64_t number = NUMBER_BEFORE;
    uint8_t *to = fresh_records();
    uint32_t got = jd_translate_pivot_pair(r.left.bytes, r.left.length, r.right.bytes,
                                           r.right.length, p.old.bytes, p.old.length,
                                           p.new.bytes, p.new.length, to, dest, &number);
    records_left(name, got, number, wanted, written);
}

/* Pivots under another prefix, with another end. */
static inline void renamed(const char *name, slice pivots, prefixes p, slice end, size_t dest,
                           uint32_t wanted, slice written)
{
    uint64_t number = NUMBER_BEFORE;
    uint8_t *to = fresh_records();
    uint32_t got = jd_translate_pivots(pivots.bytes, pivots.length, p.old.bytes, p.old.length,
                                       p.new.bytes, p.new.length, end.bytes, end.length, to, dest,
                                       &number);
    records_left(name, got, number, wanted, written);
}

/* Edges with the range's prefix where there was none. */
static inline void filled(const char *name, pair table, size_t dest, uint32_t wanted,
                          slice written)
{
    uint64_t number = NUMBER_BEFORE;
    uint8_t *to = fresh_records();
    uint32_t got = jd_translate_edges(table.pivots.bytes, table.pivots.length, table.edges.bytes,
                                      table.edges.length, to, dest, &number);
    records_left(name, got, number, wanted, written);
}

/* Whether the child holds the range of the parent's slot. */
static inline void in_child(const char *name, pair parent, slice child, uint64_t slot,
                            uint32_t wanted, uint64_t yes)
{
    uint64_t number = NUMBER_BEFORE;
    uint32_t got = jd_parent_keys_in_child_range(
        parent.pivots.bytes, parent.pivots.length, parent.edges.bytes, parent.edges.length,
        child.bytes, child.length, slot, &number);
    result(name, got, number, wanted, yes);
}

#endif
