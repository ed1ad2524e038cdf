/*
 * What is lent to a call, between guard bytes.
 */
#ifndef GUARDED_H
#define GUARDED_H

#include "reader.h"

typedef struct {
    buffer lent;
    size_t length;
    uint8_t guard;
} guarded;

static inline void lend(guarded *g, const uint8_t *bytes, size_t length, uint8_t guard)
{
    g->length = length;
    g->guard = guard;
    g->lent.length = 0;
    reserve(&g->lent, GUARD + length + GUARD);
    memset(g->lent.bytes, guard, GUARD + length + GUARD);
    if (bytes != NULL)
        memcpy(g->lent.bytes + GUARD, bytes, length);
}

static inline uint8_t *inside(const guarded *g)
{
    return g->lent.bytes + GUARD;
}

/* Whether it begins with these bytes, and all else is as it was filled. */
static inline int is_left(const guarded *g, const buffer *written)
{
    size_t changed = written->length > g->length;
    for (size_t i = 0; changed == 0 && i < GUARD + g->length + GUARD; i++) {
        int within = i >= GUARD && i < GUARD + written->length;
        changed += g->lent.bytes[i] != (within ? written->bytes[i - GUARD] : g->guard);
    }
    return changed == 0;
}

#endif
