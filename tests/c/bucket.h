/*
 * What the C programs on buckets share: entries, buckets of them, and the calls, into a
 * destination between bytes that must not change.
 */
#ifndef BUCKET_H
#define BUCKET_H

#include "renaming.h"

/* Room for an entry more than there may be. */
#define BUCKET_ROOM ((JD_MAX_ENTRIES + 1) * JD_ENTRY_SIZE)

/* Writes an entry: a record, and a number that ends with this byte. */
static inline void put_entry(uint8_t *at, slice r, unsigned number)
{
    memset(at, 0x91, JD_ENTRY_SIZE);
    memcpy(at, r.bytes, r.length);
    at[JD_ENTRY_SIZE - 1] = (uint8_t)number;
}

/* An entry of its own; it takes the place of a table. */
static inline slice entry(slice r, unsigned number)
{
    uint8_t *e = next_table();
    put_entry(e, r, number);
    return (slice){e, JD_ENTRY_SIZE};
}

static uint8_t bucket_room[GUARD + BUCKET_ROOM + GUARD];

/* What is kept of a bucket under another prefix, in a destination of this length. */
static inline void kept(const char *name, slice bucket, prefixes p, size_t dest, uint32_t wanted,
                        slice written)
{
    uint64_t number = NUMBER_BEFORE;
    uint8_t *to = refill(bucket_room, sizeof bucket_room);
    uint32_t got = jd_translate_bucket(bucket.bytes, bucket.length, p.old.bytes, p.old.length,
                                       p.new.bytes, p.new.length, to, dest, &number);
    result(name, got, number, wanted, written.length / JD_ENTRY_SIZE);
    count(holds(bucket_room, sizeof bucket_room, written), name);
}

/* Whether it will fit. */
static inline void fits(const char *name, slice bucket, prefixes p, uint64_t dest,
                        uint32_t wanted, uint64_t yes)
{
    uint64_t number = NUMBER_BEFORE;
    uint32_t got = jd_translate_bucket_will_fit(bucket.bytes, bucket.length, p.old.bytes,
                                                p.old.length, p.new.bytes, p.new.length, dest,
                                                &number);
    result(name, got, number, wanted, yes);
}

#endif
