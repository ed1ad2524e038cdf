/*
 * What the C programs share on cuts of T and on a new pivot in it: T with other edges, copies of what
 * is lent, and two calls in a row.
 */
#ifndef CUTS_H
#define CUTS_H

#include "table.h"

static inline pair t(void)
{
    return (pair){pivots_of_t(), edges_of_t()};
}

/* T with another first edge. */
static inline pair t_with(slice edge)
{
    return (pair){pivots_of_t(), TABLE(key(edge), record(JD_NO_EDGE, none))};
}

/* A copy of what is lent, for afterwards. Nothing lent is longer than a bucket with an entry too
 * many. */
typedef struct {
    slice lent;
    uint8_t bytes[(JD_MAX_ENTRIES + 1) * JD_ENTRY_SIZE];
} copy;

static inline void copied(copy *c, slice lent)
{
    c->lent = lent;
    memcpy(c->bytes, lent.bytes, lent.length);
}

static inline int unchanged(const copy *c)
{
    return memcmp(c->bytes, c->lent.bytes, c->lent.length) == 0;
}

/* ---- two calls: the second is lent exactly what the first wrote */

/* The first leaves this, and the second, of it, what is wanted, or it refuses. */
static inline void two_cuts(const char *name, pair table, split_call *first, slice k, pair written,
                            split_call *second, slice m, uint32_t refusal, pair wanted)
{
    cut(name, first, table, k, ample, 0, written);
    pair lent = {{cut_room->pivots + GUARD, written.pivots.length},
                 {cut_room->edges + GUARD, written.edges.length}};
    cut(name, second, lent, m, ample, refusal, wanted);
    count(memcmp(lent.pivots.bytes, written.pivots.bytes, lent.pivots.length) == 0, name);
    count(memcmp(lent.edges.bytes, written.edges.bytes, lent.edges.length) == 0, name);
}

#endif
