/*
 * What the C programs on pairs share: records of pairs, and the calls on them into destinations
 * between bytes that must not change.
 */
#ifndef PAIR_H
#define PAIR_H

#include "table.h"

#define OLD_AT 5
#define NEW_AT (OLD_AT + JD_MAX_LEN)

static const uint8_t absent_bytes[JD_PAIR_SIZE];
static const slice absent_pair = {absent_bytes, JD_PAIR_SIZE};

/* The last 64 pairs made stand side by side, more than a check uses. One byte more is there for
 * a slice that is too long. */
static inline uint8_t *next_pair(slice copied)
{
    static uint8_t pairs[64][JD_PAIR_SIZE + 1];
    static unsigned next;
    uint8_t *p = pairs[next++ % 64];
    memcpy(p, copied.bytes, JD_PAIR_SIZE);
    return p;
}

/* The pair from an old prefix to a new one. */
static inline slice from_to(slice old, slice new)
{
    uint8_t *p = next_pair(absent_pair);
    p[0] = 1;
    p[2] = (uint8_t)old.length;
    p[4] = (uint8_t)new.length;
    memcpy(p + OLD_AT, old.bytes, old.length);
    memcpy(p + NEW_AT, new.bytes, new.length);
    return (slice){p, JD_PAIR_SIZE};
}

/* The pair with this byte at this place. */
static inline slice pair_with(slice pair, size_t place, unsigned byte)
{
    uint8_t *p = next_pair(pair);
    p[place] = (uint8_t)byte;
    return (slice){p, JD_PAIR_SIZE};
}

/* A call that writes a pair answers whether it is there; one that is refused writes nothing. */
static inline void pair_left(const char *name, uint32_t got, uint64_t number, uint32_t wanted,
                             slice written)
{
    result(name, got, number, wanted, written.length > 0 ? written.bytes[0] : 0);
    left(name, written);
}

static inline void reversed(const char *name, slice p, size_t dest, uint32_t wanted,
                            slice written)
{
    uint64_t number = NUMBER_BEFORE;
    uint8_t *to = fresh();
    uint32_t got = jd_reverse_pair(p.bytes, p.length, to, dest, &number);
    pair_left(name, got, number, wanted, written);
}

static inline void composed(const char *name, slice a, slice b, size_t dest, uint32_t wanted,
                            slice written)
{
    uint64_t number = NUMBER_BEFORE;
    uint8_t *to = fresh();
    uint32_t got = jd_compose_pairs(a.bytes, a.length, b.bytes, b.length, to, dest, &number);
    pair_left(name, got, number, wanted, written);
}

/* The pair of a key in a table. */
static inline void pair_of(const char *name, pair table, slice k, size_t dest, uint32_t wanted,
                           slice written)
{
    uint64_t number = NUMBER_BEFORE;
    uint8_t *to = fresh();
    uint32_t got = jd_translate(table.pivots.bytes, table.pivots.length, table.edges.bytes,
                                table.edges.length, k.bytes, k.length, to, dest, &number);
    pair_left(name, got, number, wanted, written);
}

/* The pair applied to a key. */
static inline void applied(const char *name, slice p, slice k, size_t dest, uint32_t wanted,
                           slice written)
{
    uint64_t number = NUMBER_BEFORE;
    uint8_t *to = fresh();
    uint32_t got = jd_apply_pair(p.bytes, p.length, k.bytes, k.length, to, dest, &number);
    result(name, got, number, wanted, written.length);
    left(name, written);
}

#endif
