/*
 * What the C programs on tables share: tables of records, and cuts, joins and lists of them into
 * destinations between bytes that must not change.
 */
#ifndef TABLE_H
#define TABLE_H

#include "check.h"

#define TABLE(...) \
    table((slice[]){__VA_ARGS__}, sizeof((slice[]){__VA_ARGS__}) / sizeof(slice))

/* The last 64 tables made stand side by side, more than a check uses. */
static inline uint8_t *next_table(void)
{
    static uint8_t tables[64][(JD_MAX_PIVOTS + 2) * JD_RECORD_SIZE];
    static unsigned next;
    return tables[next++ % 64];
}

/* These records, or entries, as one slice. */
static inline slice table(const slice *records, size_t count)
{
    uint8_t *t = next_table();
    size_t length = 0;
    for (size_t i = 0; i < count; i++) {
        memcpy(t + length, records[i].bytes, records[i].length);
        length += records[i].length;
    }
    return (slice){t, length};
}

/* Table T's pivots: A0, A5, B. Its edges are C and none. */
static inline slice pivots_of_t(void)
{
    return TABLE(key(BYTES("A0")), key(BYTES("A5")), key(BYTES("B")));
}

static inline slice edges_of_t(void)
{
    return TABLE(key(BYTES("C")), record(JD_NO_EDGE, none));
}

/* ---- cuts and joins */

typedef uint32_t split_call(const uint8_t *pivots, size_t pivots_len, const uint8_t *edges,
                            size_t edges_len, const uint8_t *key, size_t key_len,
                            uint8_t *dest_pivots, size_t dest_pivots_len, uint8_t *dest_edges,
                            size_t dest_edges_len, uint64_t *written);

typedef struct {
    slice pivots, edges;
} pair;

/* Lengths of the two destinations. */
typedef struct {
    size_t pivots, edges;
} lengths;

#define CUT_ROOM (JD_MAX_PIVOTS * JD_RECORD_SIZE)
static const lengths ample = {CUT_ROOM, CUT_ROOM};
static const pair nothing = {{long_bytes, 0}, {long_bytes, 0}};

/* The destinations of a table. Two calls in a row have different ones, so that the second can be
 * lent what the first wrote. */
static struct {
    uint8_t pivots[GUARD + CUT_ROOM + GUARD];
    uint8_t edges[GUARD + CUT_ROOM + GUARD];
} cut_rooms[2], *cut_room = cut_rooms;

static inline void next_cut_room(void)
{
    cut_room = cut_room == cut_rooms ? cut_rooms + 1 : cut_rooms;
    refill(cut_room->pivots, sizeof cut_room->pivots);
    refill(cut_room->edges, sizeof cut_room->edges);
}

/* What the call returned and answered, and both destinations whole. */
static inline void table_result(const char *name, uint32_t got, uint64_t number, uint32_t wanted,
                                pair written)
{
    result(name, got, number, wanted, written.pivots.length / JD_RECORD_SIZE);
    count(holds(cut_room->pivots, sizeof cut_room->pivots, written.pivots), name);
    count(holds(cut_room->edges, sizeof cut_room->edges, written.edges), name);
}

/* A cut, or a key put in as a pivot. */
static inline void cut(const char *name, split_call *call, pair table, slice k, lengths dest,
                       uint32_t wanted, pair written)
{
    uint64_t number = NUMBER_BEFORE;
    next_cut_room();
    uint32_t got = call(table.pivots.bytes, table.pivots.length, table.edges.bytes,
                        table.edges.length, k.bytes, k.length, cut_room->pivots + GUARD,
                        dest.pivots, cut_room->edges + GUARD, dest.edges, &number);
    table_result(name, got, number, wanted, written);
}

/* Two tables put together. */
static inline void join(const char *name, pair first, pair second, lengths dest, uint32_t wanted,
                        pair written)
{
    uint64_t number = NUMBER_BEFORE;
    next_cut_room();
    uint32_t got = jd_join(first.pivots.bytes, first.pivots.length, first.edges.bytes,
                           first.edges.length, second.pivots.bytes, second.pivots.length,
                           second.edges.bytes, second.edges.length, cut_room->pivots + GUARD,
                           dest.pivots, cut_room->edges + GUARD, dest.edges, &number);
    table_result(name, got, number, wanted, written);
}

/* The translation of a key, into a destination of this length. */
static inline void translate(const char *name, pair table, slice k, size_t dest, uint32_t wanted,
                             slice written)
{
    uint64_t number = NUMBER_BEFORE;
    uint8_t *to = fresh();
    uint32_t got = jd_translate_key(table.pivots.bytes, table.pivots.length, table.edges.bytes,
                                    table.edges.length, k.bytes, k.length, to, dest, &number);
    result(name, got, number, wanted, written.length);
    left(name, written);
}

/* ---- lists */

#define LONGEST_LIST 32715
#define INPUT_ROOM (2 + (2 * JD_MAX_PIVOTS + 3) * JD_RECORD_SIZE)

/* An input of the list: a count and a table. The last 8 made stand side by side. */
static inline slice input(unsigned count, pair table)
{
    static uint8_t inputs[8][INPUT_ROOM];
    static unsigned next;
    uint8_t *in = inputs[next++ % 8];
    in[0] = (uint8_t)(count >> 8);
    in[1] = (uint8_t)count;
    memcpy(in + 2, table.pivots.bytes, table.pivots.length);
    memcpy(in + 2 + table.pivots.length, table.edges.bytes, table.edges.length);
    return (slice){in, 2 + table.pivots.length + table.edges.length};
}

static uint8_t list_room[GUARD + LONGEST_LIST + GUARD];

/* The list of an input, into a destination of this length. */
static inline void list(const char *name, slice in, size_t dest, uint32_t wanted, slice written)
{
    uint64_t number = NUMBER_BEFORE;
    uint8_t *to = refill(list_room, sizeof list_room);
    uint32_t got = jd_list_table(in.bytes, in.length, to, dest, &number);
    result(name, got, number, wanted, written.length);
    count(holds(list_room, sizeof list_room, written), name);
}

#endif
