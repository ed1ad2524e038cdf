/*
 * What the C programs share: counted checks, slices and records, and a destination between bytes
 * that must not change.
 */
#ifndef CHECK_H
#define CHECK_H

#include "joistdenim.h"

#include <inttypes.h>
#include <stdio.h>
#include <string.h>

typedef struct {
    const uint8_t *bytes;
    size_t length;
} slice;

#define BYTES(text) ((slice){(const uint8_t *)(text), sizeof(text) - 1})
#define GUARD 16
#define ROOM 160
#define BEFORE 0xA7
#define NUMBER_BEFORE 0x5A5AC3C396966969

static unsigned passed, failed;

static inline void count(int good, const char *name)
{
    if (good) {
        passed++;
    } else {
        failed++;
        printf("FAILED %s\n", name);
    }
}

/* A result: the number returned and the number behind the pointer, which a refusal leaves. */
static inline void result(const char *name, uint32_t got, uint64_t number, uint32_t wanted,
                          uint64_t answer)
{
    uint64_t left = wanted == 0 ? answer : NUMBER_BEFORE;
    count(got == wanted && number == left, name);
    if (got != wanted || number != left)
        printf("  returned %" PRIu32 ", number %" PRId64 "\n", got, (int64_t)number);
}

/* A destination with guards, all of it filled before a call. */
static uint8_t room[GUARD + ROOM + GUARD];

static inline uint8_t *refill(uint8_t *guarded, size_t size)
{
    memset(guarded, BEFORE, size);
    return guarded + GUARD;
}

static inline uint8_t *fresh(void)
{
    return refill(room, sizeof room);
}

/* Whether the destination begins with what was written, and no other byte has changed. */
static inline int holds(const uint8_t *guarded, size_t size, slice written)
{
    size_t changed = 0;
    for (size_t i = 0; i < size; i++) {
        int inside = i >= GUARD && i < GUARD + written.length;
        changed += guarded[i] != (inside ? written.bytes[i - GUARD] : BEFORE);
    }
    return changed == 0;
}

static inline void left(const char *name, slice written)
{
    count(holds(room, sizeof room, written), name);
}

/* Writes a record with this length field and these bytes. */
static inline void put(uint8_t *at, unsigned field, slice bytes)
{
    memset(at, 0, JD_RECORD_SIZE);
    at[0] = (uint8_t)(field >> 8);
    at[1] = (uint8_t)field;
    memcpy(at + 2, bytes.bytes, bytes.length);
}

/* A record of its own. The last 256 made stand side by side, more than a check uses. */
static inline slice record(unsigned field, slice bytes)
{
    static uint8_t records[256][JD_RECORD_SIZE];
    static unsigned next;
    uint8_t *r = records[next++ % 256];
    put(r, field, bytes);
    return (slice){r, JD_RECORD_SIZE};
}

static inline slice key(slice bytes)
{
    return record((unsigned)bytes.length, bytes);
}

/* The first bytes of a slice. */
static inline slice head(slice s, size_t length)
{
    return (slice){s.bytes, length};
}

static const uint8_t long_bytes[65] = "0123456789abcdef0123456789abcdef"
                                      "0123456789abcdef0123456789abcdef";
static const slice full = {long_bytes, 64};
static const slice over = {long_bytes, 65};
static const slice none = {long_bytes, 0};

/* Prints the count, the program's last line, and gives its status. */
static inline int report(void)
{
    printf("%u passed, %u failed\n", passed, failed);
    return failed != 0;
}

#endif
