/*
 * What the C programs share on the index beside a bucket: places, and the calls, into destinations
 * between bytes that must not change. Every byte that is lent is copied before a call and must be
 * the same afterwards.
 */
#ifndef INDEX_H
#define INDEX_H

#include "bucket.h"
#include "cuts.h"

#define PLACES(...) \
    places((unsigned[]){__VA_ARGS__}, sizeof((unsigned[]){__VA_ARGS__}) / sizeof(unsigned))

/* An index of these places. */
static inline slice places(const unsigned *at, size_t count)
{
    uint8_t *t = next_table();
    for (size_t i = 0; i < count; i++) {
        t[JD_PLACE_SIZE * i] = (uint8_t)(at[i] >> 8);
        t[JD_PLACE_SIZE * i + 1] = (uint8_t)at[i];
    }
    return (slice){t, JD_PLACE_SIZE * count};
}

/* What every call but the first is lent. */
typedef struct {
    slice pivots, bucket, index;
} indexed;

/* Entries and their places, as they are written. */
typedef struct {
    slice bucket, index;
} drawers;

/* Lengths of the two destinations. */
typedef struct {
    size_t bucket, index;
} drawer_lengths;

/* Room for a place more than there may be. */
#define INDEX_ROOM ((JD_MAX_PIVOTS + 1) * JD_PLACE_SIZE)
static const drawer_lengths roomy = {BUCKET_ROOM, INDEX_ROOM};
static const drawers unwritten = {{long_bytes, 0}, {long_bytes, 0}};

static uint8_t index_room[GUARD + INDEX_ROOM + GUARD];

/* Two entries in each slot of T, one of them at its left pivot. */
static inline slice four(void)
{
    return TABLE(entry(key(BYTES("A0")), 1), entry(key(BYTES("A1")), 2),
                 entry(key(BYTES("A5")), 3), entry(key(BYTES("A\xff")), 4));
}

static inline indexed of_t(void)
{
    return (indexed){pivots_of_t(), four(), PLACES(0, 2, 4)};
}

/* The entries of a bucket between two places. */
static inline slice part(slice bucket, size_t from, size_t to)
{
    return (slice){bucket.bytes + from * JD_ENTRY_SIZE, (to - from) * JD_ENTRY_SIZE};
}

/* ---- what is lent, before and after */

static copy lent_copies[5];

static inline void lend(indexed x, slice k, slice m)
{
    const slice lent[] = {x.pivots, x.bucket, x.index, k, m};
    for (size_t i = 0; i < 5; i++)
        copied(&lent_copies[i], lent[i]);
    refill(bucket_room, sizeof bucket_room);
    refill(index_room, sizeof index_room);
}

static inline void lent_unchanged(const char *name)
{
    int same = 1;
    for (size_t i = 0; i < 5; i++)
        same &= unchanged(&lent_copies[i]);
    count(same, name);
}

/* Both destinations whole, and what was lent. */
static inline void drawers_left(const char *name, drawers written)
{
    count(holds(bucket_room, sizeof bucket_room, written.bucket), name);
    count(holds(index_room, sizeof index_room, written.index), name);
    lent_unchanged(name);
}

static inline uint64_t total(slice bucket)
{
    return bucket.length / JD_ENTRY_SIZE;
}

/* ---- the calls */

/* The index of a bucket, into a destination of this length. */
static inline void built(const char *name, slice pivots, slice bucket, size_t dest,
                         uint32_t wanted, slice written)
{
    uint64_t number = NUMBER_BEFORE;
    lend((indexed){pivots, bucket, none}, none, none);
    uint32_t got = jd_build_index(pivots.bytes, pivots.length, bucket.bytes, bucket.length,
                                  index_room + GUARD, dest, &number);
    result(name, got, number, wanted, total(bucket));
    drawers_left(name, (drawers){none, written});
}

static inline void checked(const char *name, indexed x, uint32_t wanted)
{
    uint64_t number = NUMBER_BEFORE;
    lend(x, none, none);
    uint32_t got = jd_check_index(x.pivots.bytes, x.pivots.length, x.bucket.bytes,
                                  x.bucket.length, x.index.bytes, x.index.length, &number);
    result(name, got, number, wanted, total(x.bucket));
    lent_unchanged(name);
}

/* How many entries a slot has. */
static inline void slot_has(const char *name, indexed x, uint64_t slot, uint32_t wanted,
                            uint64_t entries)
{
    uint64_t number = NUMBER_BEFORE;
    lend(x, none, none);
    uint32_t got =
        jd_slot_entries(x.pivots.bytes, x.pivots.length, x.bucket.bytes, x.bucket.length,
                        x.index.bytes, x.index.length, slot, &number);
    result(name, got, number, wanted, entries);
    lent_unchanged(name);
}

typedef uint32_t index_cut_call(const uint8_t *pivots, size_t pivots_len, const uint8_t *bucket,
                                size_t bucket_len, const uint8_t *index, size_t index_len,
                                const uint8_t *key, size_t key_len, uint8_t *dest_bucket,
                                size_t dest_bucket_len, uint8_t *dest_index,
                                size_t dest_index_len, uint64_t *total);

static inline void index_cut(const char *name, index_cut_call *call, indexed x, slice k,
                             drawer_lengths dest, uint32_t wanted, drawers written)
{
    uint64_t number = NUMBER_BEFORE;
    lend(x, k, none);
    uint32_t got = call(x.pivots.bytes, x.pivots.length, x.bucket.bytes, x.bucket.length,
                        x.index.bytes, x.index.length, k.bytes, k.length, bucket_room + GUARD,
                        dest.bucket, index_room + GUARD, dest.index, &number);
    result(name, got, number, wanted, total(written.bucket));
    drawers_left(name, written);
}

/* All drawers under another prefix. */
static inline void index_moved(const char *name, indexed x, prefixes p, drawer_lengths dest,
                               uint32_t wanted, drawers written)
{
    uint64_t number = NUMBER_BEFORE;
    lend(x, p.old, p.new);
    uint32_t got = jd_translate_index(x.pivots.bytes, x.pivots.length, x.bucket.bytes,
                                      x.bucket.length, x.index.bytes, x.index.length, p.old.bytes,
                                      p.old.length, p.new.bytes, p.new.length,
                                      bucket_room + GUARD, dest.bucket, index_room + GUARD,
                                      dest.index, &number);
    result(name, got, number, wanted, total(written.bucket));
    drawers_left(name, written);
}

#endif
