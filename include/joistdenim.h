/*
 * joistdenim: keys of 0 to 64 bytes in order. Link with libjoistdenim.a, which needs memcpy and
 * memset and no other function.
 *
 * One rule for every function:
 * - It returns 0, or the number of the first refusal that applies over all arguments, in the
 *   order in which the function names them: 1, 2, 3, 4, 13, 14, 5, 11, 12, 15, 6, 7, 8, 9, 10.
 * - What it answers goes through the last parameter, a pointer to one number.
 *   A refusal leaves that number, like every lent byte, as it was.
 * - A slice is a pointer and a length in bytes. A slice that is written overlaps nothing else
 *   of the call. An empty slice has any pointer that isn't null: NULL is forbidden, with length 0
 *   too. jd_lent and jd_dest make of it a pointer that can be lent.
 * - A result stands at the head of its destination; the bytes after it stay as they were.
 *
 * A record has JD_RECORD_SIZE bytes: a length field of two bytes, high byte first, and
 * JD_MAX_LEN bytes, zero after the key, which begins at byte 2. The field is the key's length,
 * JD_NO_EDGE or JD_MAX; all else is malformed, and so is a mark before a byte that isn't zero.
 * An element is a record with a key or max. An entry has JD_ENTRY_SIZE bytes: a record with a
 * key, and a number of four bytes, high byte first. A key or prefix argument is lent as its bytes
 * alone.
 *
 * A pair changes an old prefix to a new one, or is absent and changes nothing. It has
 * JD_PAIR_SIZE bytes: a flag, 1 where it is there and 0 where it is absent; the lengths of old
 * and new prefix in two bytes each, high byte first; the old prefix in JD_MAX_LEN bytes from
 * byte 5 on; the new one from byte 69 on. Another flag is malformed, and so is a length over
 * JD_MAX_LEN in a pair that is there. Bytes past a length, and all after the flag of an absent
 * pair, are not looked at in an argument and are zero in a result.
 */
#ifndef JOISTDENIM_H
#define JOISTDENIM_H

#include <stddef.h>
#include <stdint.h>

/* The version. A new call raises the minor; a changed signature, answer or format the major.
 * CHANGELOG.md says what a caller must do. */
#define JD_VERSION_MAJOR 4
#define JD_VERSION_MINOR 0
#define JD_VERSION_PATCH 2

#define JD_MAX_LEN 64
#define JD_RECORD_SIZE 66
#define JD_ENTRY_SIZE 70
#define JD_PAIR_SIZE 133
#define JD_PLACE_SIZE 2
#define JD_MIN_PIVOTS 2
#define JD_MAX_PIVOTS 64
#define JD_MAX_ENTRIES 512
#define JD_MAX_LIST 32715 /* the bytes of the longest list of a table */

/* The two marks in a record's length field. */
#define JD_NO_EDGE 65534
#define JD_MAX 65535

enum jd_refusal {
    JD_SHAPE = 1,             /* a slice isn't the records, entries or pair it should be */
    JD_MALFORMED = 2,         /* a malformed record or pair, a wrong mark, or a key over 64 bytes */
    JD_UNSORTED = 3,          /* pivots don't rise strictly */
    JD_EMPTY_PREFIX = 4,      /* an edge where the range's prefix is empty */
    JD_OUT_OF_RANGE = 5,      /* a key is outside the table's range */
    JD_NO_SUCH_SLOT = 6,      /* no such slot, or no key at that place */
    JD_NOT_PREFIX = 7,        /* an old prefix doesn't begin what it must */
    JD_TOO_LONG = 8,          /* a produced key or prefix passes 64 bytes */
    JD_NOT_BELOW = 9,         /* left isn't below right, or the last new pivot below the end */
    JD_NO_ROOM = 10,          /* a destination is too short */
    JD_ALREADY_PIVOT = 11,    /* the key is already a pivot */
    JD_TOO_MANY_PIVOTS = 12,  /* the table would have more than 64 pivots */
    JD_NOT_MEETING = 13,      /* the tables don't meet: one's last pivot isn't the other's first */
    JD_ENTRIES_UNSORTED = 14, /* the keys of a bucket don't rise strictly */
    JD_WRONG_INDEX = 15       /* an index isn't the one that belongs to table and bucket */
};

/* What a call returned means, told in the words above. */
static inline const char *jd_refusal_text(uint32_t refusal)
{
    switch (refusal) {
    case 0: return "accepted";
    case JD_SHAPE: return "a slice isn't the records, entries or pair it should be";
    case JD_MALFORMED: return "a malformed record or pair, a wrong mark, or a key over 64 bytes";
    case JD_UNSORTED: return "pivots don't rise strictly";
    case JD_EMPTY_PREFIX: return "an edge where the range's prefix is empty";
    case JD_OUT_OF_RANGE: return "a key is outside the table's range";
    case JD_NO_SUCH_SLOT: return "no such slot, or no key at that place";
    case JD_NOT_PREFIX: return "an old prefix doesn't begin what it must";
    case JD_TOO_LONG: return "a produced key or prefix passes 64 bytes";
    case JD_NOT_BELOW: return "left isn't below right, or the last new pivot below the end";
    case JD_NO_ROOM: return "a destination is too short";
    case JD_ALREADY_PIVOT: return "the key is already a pivot";
    case JD_TOO_MANY_PIVOTS: return "the table would have more than 64 pivots";
    case JD_NOT_MEETING: return "the tables don't meet: one's last pivot isn't the other's first";
    case JD_ENTRIES_UNSORTED: return "the keys of a bucket don't rise strictly";
    case JD_WRONG_INDEX: return "an index isn't the one that belongs to table and bucket";
    default: return "no refusal of this version of the library";
    }
}

/* The pointer to lend with this length: the one given, or for an empty slice that has none, as an
 * empty std::vector, one that isn't null. NULL with another length stays NULL, which is a mistake
 * of the caller's that must not be hidden. */
static inline const uint8_t *jd_lent(const uint8_t *bytes, size_t length)
{
    static const uint8_t nothing = 0;
    return bytes == NULL && length == 0 ? &nothing : bytes;
}

/* The pointer to lend as a destination of this length, made as by jd_lent. */
static inline uint8_t *jd_dest(uint8_t *bytes, size_t length)
{
    static uint8_t nothing;
    return bytes == NULL && length == 0 ? &nothing : bytes;
}

#ifdef __cplusplus
extern "C" {
#endif

/* ---- Keys. */

/* The order of two elements: -1, 0 or 1. Refuses JD_SHAPE, JD_MALFORMED. */
uint32_t jd_compare(const uint8_t *a, size_t a_len, const uint8_t *b, size_t b_len,
                    int64_t *order);

/* The length of a pivot record's key. Refuses JD_SHAPE, JD_MALFORMED (both marks too). */
uint32_t jd_pivot_key(const uint8_t *record, size_t record_len, uint64_t *length);

/* The length of an entry's key. Refuses JD_SHAPE, JD_MALFORMED (both marks too). */
uint32_t jd_entry_key(const uint8_t *entry, size_t entry_len, uint64_t *length);

/* Writes the new prefix and what the key has after the old one; answers the new key's length.
 * Refuses JD_MALFORMED, JD_NOT_PREFIX, JD_TOO_LONG, JD_NO_ROOM. */
uint32_t jd_change_prefix(const uint8_t *key, size_t key_len,
                          const uint8_t *old_prefix, size_t old_prefix_len,
                          const uint8_t *new_prefix, size_t new_prefix_len,
                          uint8_t *dest, size_t dest_len, uint64_t *length);

/* The length of the range's prefix, which begins the left key. For left below right it is the
 * longest prefix that all keys from left up to, but without, right share. Left is a key, right
 * an element. Refuses JD_SHAPE, JD_MALFORMED. */
uint32_t jd_pivot_lcp(const uint8_t *left, size_t left_len,
                      const uint8_t *right, size_t right_len, uint64_t *length);

/* Writes the prefix's upper bound, one record: its last byte that isn't FF raised by 1 and the
 * rest dropped, or max where there is none. Answers 1. Refuses JD_MALFORMED, JD_NO_ROOM. */
uint32_t jd_shortest_uncommon_prefix(const uint8_t *prefix, size_t prefix_len,
                                     uint8_t *dest, size_t dest_len, uint64_t *written);

/* ---- Translation. Where the result is a pair, here and below, the answer is 1 where it is there
 * and 0 where it is absent. */

/* Writes the pair of the key's slot: from the range's prefix to the slot's edge, or absent where
 * the slot has no edge. Refuses JD_SHAPE, JD_MALFORMED, JD_UNSORTED, JD_EMPTY_PREFIX,
 * JD_OUT_OF_RANGE, JD_NO_ROOM. */
uint32_t jd_translate(const uint8_t *pivots, size_t pivots_len,
                      const uint8_t *edges, size_t edges_len,
                      const uint8_t *key, size_t key_len,
                      uint8_t *dest_pair, size_t dest_pair_len, uint64_t *there);

/* ---- Pairs. */

/* Writes the pair with old and new prefix swapped. Refuses JD_SHAPE, JD_MALFORMED, JD_NO_ROOM. */
uint32_t jd_reverse_pair(const uint8_t *pair, size_t pair_len,
                         uint8_t *dest_pair, size_t dest_pair_len, uint64_t *there);

/* Writes the key with the pair's new prefix in place of its old one, or the key itself where the
 * pair is absent; answers its length. Refuses JD_SHAPE, JD_MALFORMED, JD_NOT_PREFIX, JD_TOO_LONG,
 * JD_NO_ROOM. */
uint32_t jd_apply_pair(const uint8_t *pair, size_t pair_len,
                       const uint8_t *key, size_t key_len,
                       uint8_t *dest, size_t dest_len, uint64_t *length);

/* Writes the pair that undoes b and then does a: it takes what b makes of a key to what a makes
 * of it. Where a is absent that is b reversed, where b is absent a. Refuses JD_SHAPE,
 * JD_MALFORMED, JD_NOT_PREFIX (neither old prefix begins the other), JD_TOO_LONG (a prefix of the
 * result), JD_NO_ROOM. */
uint32_t jd_compose_pairs(const uint8_t *pair_a, size_t pair_a_len,
                          const uint8_t *pair_b, size_t pair_b_len,
                          uint8_t *dest_pair, size_t dest_pair_len, uint64_t *there);

/* ---- Buckets. A bucket is 0 to JD_MAX_ENTRIES entries, in any order; keys may be equal. */

/* Writes the entries whose key begins with the prefix, in their order, with the prefix changed and
 * the number as it was; the others are passed over. Answers how many are written. The destination
 * must hold these alone: JD_ENTRY_SIZE bytes for each, and with none kept an empty one will do.
 * Refuses JD_SHAPE, JD_MALFORMED (of any entry), JD_TOO_LONG (of a kept one), JD_NO_ROOM. */
uint32_t jd_translate_bucket(const uint8_t *bucket, size_t bucket_len,
                             const uint8_t *prefix, size_t prefix_len,
                             const uint8_t *new_prefix, size_t new_prefix_len,
                             uint8_t *dest, size_t dest_len, uint64_t *kept);

/* Whether jd_translate_bucket takes these with a destination of dest_len bytes: no exactly where
 * it would refuse JD_TOO_LONG or JD_NO_ROOM. Refuses JD_SHAPE, JD_MALFORMED. */
uint32_t jd_translate_bucket_will_fit(const uint8_t *bucket, size_t bucket_len,
                                      const uint8_t *prefix, size_t prefix_len,
                                      const uint8_t *new_prefix, size_t new_prefix_len,
                                      uint64_t dest_len, uint64_t *yes);

/* ---- List. */

/* Writes the list of the table in the input; answers the text's length, at most JD_MAX_LIST. The
 * input is the count of the pivots in two bytes, high byte first, the pivots and the edges. The
 * text is the line "slot left right shared edge" and a line for each slot: its number from 0, its
 * two pivots, the range's prefix and the edge. A tab parts two fields, and 0A ends each line. Keys
 * are lower-case hexadecimal; max is "max", and the empty key is "-". An edge of length 0 is ".",
 * and no edge is "-".
 * An input with missing or extra bytes, or that is no table, is accepted too: its text is
 * "refused", a tab, the number of JD_SHAPE, JD_MALFORMED, JD_UNSORTED or JD_EMPTY_PREFIX, and 0A.
 * Refuses JD_NO_ROOM. */
uint32_t jd_list_table(const uint8_t *input, size_t input_len,
                       uint8_t *dest, size_t dest_len, uint64_t *length);

#ifdef __cplusplus
}
#endif

#include "joistdenim_index.h"
#include "joistdenim_tables.h"

#endif
