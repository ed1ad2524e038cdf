/*
 * joistdenim: the calls on tables. joistdenim.h includes this file, and has the rule for every
 * function, the sizes and the refusals.
 *
 * Pivots are 2 to JD_MAX_PIVOTS records: keys that rise strictly, the last may be max. Edges are
 * one record fewer: a key or JD_NO_EDGE. "Yes" is 1 and "no" 0.
 */
#ifndef JOISTDENIM_TABLES_H
#define JOISTDENIM_TABLES_H

#include <stddef.h>
#include <stdint.h>

#ifdef __cplusplus
extern "C" {
#endif

/* ---- Tables. */

/* Whether the pivots are well formed: 0, which is yes, or the refusal; there is nothing more to
 * answer. Refuses JD_SHAPE, JD_MALFORMED, JD_UNSORTED. */
uint32_t jd_wf_pivots(const uint8_t *pivots, size_t pivots_len);

/* Whether pivots and edges are well formed: 0, which is yes, or the refusal.
 * Refuses JD_SHAPE, JD_MALFORMED, JD_UNSORTED, JD_EMPTY_PREFIX. */
uint32_t jd_wf_edges(const uint8_t *pivots, size_t pivots_len,
                     const uint8_t *edges, size_t edges_len);

/* Whether the table goes from the empty key to max.
 * Refuses JD_SHAPE, JD_MALFORMED, JD_UNSORTED. */
uint32_t jd_contains_all_keys(const uint8_t *pivots, size_t pivots_len, uint64_t *yes);

/* Whether the table's range holds all from a left key up to a right element.
 * Refuses JD_SHAPE, JD_MALFORMED, JD_UNSORTED, JD_NOT_BELOW. */
uint32_t jd_contains_range(const uint8_t *pivots, size_t pivots_len,
                           const uint8_t *left, size_t left_len,
                           const uint8_t *right, size_t right_len, uint64_t *yes);

/* Whether the key is not below the first pivot and below the last.
 * Refuses JD_SHAPE, JD_MALFORMED, JD_UNSORTED. */
uint32_t jd_bounded_key(const uint8_t *pivots, size_t pivots_len,
                        const uint8_t *key, size_t key_len, uint64_t *yes);

/* Whether the key is above the first pivot and not above the last.
 * Refuses JD_SHAPE, JD_MALFORMED, JD_UNSORTED. */
uint32_t jd_valid_left_cut_off_key(const uint8_t *pivots, size_t pivots_len,
                                   const uint8_t *key, size_t key_len, uint64_t *yes);

/* Whether the pivots would still rise with the key put in at this place; past the pivots' count
 * it is no. Refuses JD_SHAPE, JD_MALFORMED, JD_UNSORTED. */
uint32_t jd_pivot_insertable(const uint8_t *pivots, size_t pivots_len, uint64_t place,
                             const uint8_t *key, size_t key_len, uint64_t *yes);

/* The length of the key at this place; it begins at byte 2 of the place's record.
 * Refuses JD_SHAPE, JD_MALFORMED, JD_UNSORTED, JD_NO_SUCH_SLOT (max stands there, too). */
uint32_t jd_get_key(const uint8_t *pivots, size_t pivots_len, uint64_t place, uint64_t *length);

/* Writes the first table, the empty key and max; answers 2. Refuses JD_NO_ROOM. */
uint32_t jd_init_pivot_table(uint8_t *dest, size_t dest_len, uint64_t *written);

/* The slot of the key: the last pivot not above it.
 * Refuses JD_SHAPE, JD_MALFORMED, JD_UNSORTED, JD_OUT_OF_RANGE. */
uint32_t jd_route(const uint8_t *pivots, size_t pivots_len,
                  const uint8_t *key, size_t key_len, uint64_t *slot);

/* The slot where a left cut at the key ends: the last pivot below it.
 * Refuses JD_SHAPE, JD_MALFORMED, JD_UNSORTED, JD_OUT_OF_RANGE. */
uint32_t jd_cutoff_for_left(const uint8_t *pivots, size_t pivots_len,
                            const uint8_t *key, size_t key_len, uint64_t *slot);

/* The slot where a right cut at the key begins: the key's.
 * Refuses JD_SHAPE, JD_MALFORMED, JD_UNSORTED, JD_OUT_OF_RANGE. */
uint32_t jd_cutoff_for_right(const uint8_t *pivots, size_t pivots_len,
                             const uint8_t *key, size_t key_len, uint64_t *slot);

/* ---- Cuts. A table with its edges is written into two destinations, here and where two are
 * joined; the answer is the pivots written, the edges are one fewer. */

/* Cuts off what lies from the key on: writes the pivots below the key and the key, and the edges
 * of these slots. The edge of the slot that is cut goes on with what the range's prefix gains.
 * The key is above the first pivot and not above the last. Refuses JD_SHAPE, JD_MALFORMED,
 * JD_UNSORTED, JD_EMPTY_PREFIX, JD_OUT_OF_RANGE, JD_TOO_LONG, JD_NO_ROOM. */
uint32_t jd_split_left(const uint8_t *pivots, size_t pivots_len,
                       const uint8_t *edges, size_t edges_len,
                       const uint8_t *key, size_t key_len,
                       uint8_t *dest_pivots, size_t dest_pivots_len,
                       uint8_t *dest_edges, size_t dest_edges_len, uint64_t *written);

/* Cuts off what lies below the key: writes the key and the pivots above it, and the edges of
 * these slots, the first one's as in jd_split_left. The key is not below the first pivot and
 * below the last. Refuses as jd_split_left does. */
uint32_t jd_split_right(const uint8_t *pivots, size_t pivots_len,
                        const uint8_t *edges, size_t edges_len,
                        const uint8_t *key, size_t key_len,
                        uint8_t *dest_pivots, size_t dest_pivots_len,
                        uint8_t *dest_edges, size_t dest_edges_len, uint64_t *written);

/* Puts the key, between the first pivot and the last, in as a pivot: writes the pivots in order,
 * and the edges, of which the halves of its slot have those that cuts at the key give them. Each
 * destination needs 66 bytes more than the slice that it takes the place of. Refuses as
 * jd_split_left, after JD_OUT_OF_RANGE also JD_ALREADY_PIVOT (any of them), JD_TOO_MANY_PIVOTS. */
uint32_t jd_insert_pivot(const uint8_t *pivots, size_t pivots_len,
                         const uint8_t *edges, size_t edges_len,
                         const uint8_t *key, size_t key_len,
                         uint8_t *dest_pivots, size_t dest_pivots_len,
                         uint8_t *dest_edges, size_t dest_edges_len, uint64_t *written);

/* ---- Joining. */

/* Puts two tables together, the first of which ends with the pivot that the second begins with:
 * writes the first's pivots and then the second's behind that one, and the edges of both. The
 * destination for pivots needs 66 bytes less than both slices of pivots, that for edges as much as
 * both slices of edges. Refuses JD_SHAPE, JD_MALFORMED, JD_UNSORTED, JD_EMPTY_PREFIX (each of
 * either table), JD_NOT_MEETING, JD_TOO_MANY_PIVOTS, JD_NO_ROOM. */
uint32_t jd_join(const uint8_t *first_pivots, size_t first_pivots_len,
                 const uint8_t *first_edges, size_t first_edges_len,
                 const uint8_t *second_pivots, size_t second_pivots_len,
                 const uint8_t *second_edges, size_t second_edges_len,
                 uint8_t *dest_pivots, size_t dest_pivots_len,
                 uint8_t *dest_edges, size_t dest_edges_len, uint64_t *written);

/* ---- Translation. */

/* Writes the key with its slot's edge in place of the range's prefix, or the key itself where
 * the slot has no edge; answers its length. Refuses JD_SHAPE, JD_MALFORMED, JD_UNSORTED,
 * JD_EMPTY_PREFIX, JD_OUT_OF_RANGE, JD_TOO_LONG, JD_NO_ROOM. */
uint32_t jd_translate_key(const uint8_t *pivots, size_t pivots_len,
                          const uint8_t *edges, size_t edges_len,
                          const uint8_t *key, size_t key_len,
                          uint8_t *dest, size_t dest_len, uint64_t *length);

/* ---- Renaming. */

/* Writes the range from a left key up to a right element under the new prefix, two records: left
 * with its prefix changed; right with its prefix changed, or the new prefix's upper bound where
 * right is max or lacks the prefix. Answers 2. Refuses JD_SHAPE, JD_MALFORMED, JD_NOT_PREFIX (of
 * left), JD_TOO_LONG, JD_NOT_BELOW, JD_NO_ROOM. */
uint32_t jd_translate_pivot_pair(const uint8_t *left, size_t left_len,
                                 const uint8_t *right, size_t right_len,
                                 const uint8_t *prefix, size_t prefix_len,
                                 const uint8_t *new_prefix, size_t new_prefix_len,
                                 uint8_t *dest, size_t dest_len, uint64_t *written);

/* Writes each pivot but the last with its prefix changed, and in place of the last the given end,
 * an element above the others. Answers the pivots written. Refuses JD_SHAPE, JD_MALFORMED,
 * JD_UNSORTED, JD_NOT_PREFIX, JD_TOO_LONG, JD_NOT_BELOW, JD_NO_ROOM. */
uint32_t jd_translate_pivots(const uint8_t *pivots, size_t pivots_len,
                             const uint8_t *prefix, size_t prefix_len,
                             const uint8_t *new_prefix, size_t new_prefix_len,
                             const uint8_t *end, size_t end_len,
                             uint8_t *dest, size_t dest_len, uint64_t *written);

/* Writes each edge, and where there is none the range's prefix, which may be empty: then
 * jd_wf_edges refuses what was written. Answers the edges written. Refuses JD_SHAPE,
 * JD_MALFORMED, JD_UNSORTED, JD_EMPTY_PREFIX, JD_NO_ROOM. */
uint32_t jd_translate_edges(const uint8_t *pivots, size_t pivots_len,
                            const uint8_t *edges, size_t edges_len,
                            uint8_t *dest, size_t dest_len, uint64_t *written);

/* ---- Parent and child. */

/* Whether the child's range holds the range of the parent's slot: under the slot's edge, or as it
 * is where the slot has none. Refuses JD_SHAPE, JD_MALFORMED, JD_UNSORTED, JD_EMPTY_PREFIX (of
 * the parent), JD_NO_SUCH_SLOT, JD_TOO_LONG (a bound under the edge). */
uint32_t jd_parent_keys_in_child_range(const uint8_t *parent_pivots, size_t parent_pivots_len,
                                       const uint8_t *parent_edges, size_t parent_edges_len,
                                       const uint8_t *child_pivots, size_t child_pivots_len,
                                       uint64_t slot, uint64_t *yes);

#ifdef __cplusplus
}
#endif

#endif
