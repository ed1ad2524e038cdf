/*
 * joistdenim: the calls on the index beside a bucket. joistdenim.h includes this file, and has the
 * rule for every function, the sizes and the refusals.
 *
 * The keys of the bucket rise strictly, and each lies in the range of the pivots. The index has a
 * place for each pivot: how many entries have a key below it, in JD_PLACE_SIZE bytes, high byte
 * first. So slot i has the entries from place i up to, but without, place i + 1; a slot without
 * entries has the place where the next one begins; and the last place is the total. No call here
 * looks at edges or writes a table.
 */
#ifndef JOISTDENIM_INDEX_H
#define JOISTDENIM_INDEX_H

#include <stddef.h>
#include <stdint.h>

#ifdef __cplusplus
extern "C" {
#endif

/* ---- Index. */

/* Writes the index, JD_PLACE_SIZE bytes for each pivot; answers the total.
 * Refuses JD_SHAPE, JD_MALFORMED, JD_UNSORTED, JD_ENTRIES_UNSORTED, JD_OUT_OF_RANGE (of an entry),
 * JD_NO_ROOM. */
uint32_t jd_build_index(const uint8_t *pivots, size_t pivots_len,
                        const uint8_t *bucket, size_t bucket_len,
                        uint8_t *dest, size_t dest_len, uint64_t *total);

/* Whether the index is the one that jd_build_index writes: answers the total, or refuses. Refuses
 * JD_SHAPE, JD_MALFORMED, JD_UNSORTED, JD_ENTRIES_UNSORTED, JD_OUT_OF_RANGE (of an entry),
 * JD_WRONG_INDEX (of another length, too). */
uint32_t jd_check_index(const uint8_t *pivots, size_t pivots_len,
                        const uint8_t *bucket, size_t bucket_len,
                        const uint8_t *index, size_t index_len, uint64_t *total);

/* The number of entries in a slot; they begin at the slot's place in the index.
 * Refuses as jd_check_index does, and then JD_NO_SUCH_SLOT. */
uint32_t jd_slot_entries(const uint8_t *pivots, size_t pivots_len,
                         const uint8_t *bucket, size_t bucket_len,
                         const uint8_t *index, size_t index_len, uint64_t slot, uint64_t *count);

/* Cuts off what lies from the key on: writes the entries below the key, and the index that they
 * have by the table that jd_split_left makes, of the pivots below the key and the key. Answers the
 * total written. The destinations need JD_ENTRY_SIZE bytes for each of these entries, and
 * JD_PLACE_SIZE for each of these pivots. The key is above the first pivot and not above the last.
 * Refuses as jd_check_index does, JD_MALFORMED and JD_OUT_OF_RANGE also of the key, and then
 * JD_NO_ROOM. */
uint32_t jd_cut_index_left(const uint8_t *pivots, size_t pivots_len,
                           const uint8_t *bucket, size_t bucket_len,
                           const uint8_t *index, size_t index_len,
                           const uint8_t *key, size_t key_len,
                           uint8_t *dest_bucket, size_t dest_bucket_len,
                           uint8_t *dest_index, size_t dest_index_len, uint64_t *total);

/* Cuts off what lies below the key: writes the entries not below it, and the index that they have
 * by the table that jd_split_right makes, of the key and the pivots above it; its first place is 0.
 * Answers the total written. The destinations need JD_ENTRY_SIZE bytes for each of these entries,
 * and JD_PLACE_SIZE for each of these pivots. The key is not below the first pivot and below the
 * last. Refuses as jd_cut_index_left does. */
uint32_t jd_cut_index_right(const uint8_t *pivots, size_t pivots_len,
                            const uint8_t *bucket, size_t bucket_len,
                            const uint8_t *index, size_t index_len,
                            const uint8_t *key, size_t key_len,
                            uint8_t *dest_bucket, size_t dest_bucket_len,
                            uint8_t *dest_index, size_t dest_index_len, uint64_t *total);

/* Writes what jd_translate_bucket makes of the whole bucket, and the places where what is kept of
 * each of these slots then begins, and the total, which it answers. The places belong to the old
 * slots in turn, not to another table. The destinations need JD_ENTRY_SIZE bytes for each entry
 * kept, and JD_PLACE_SIZE for each pivot. Refuses as jd_check_index does, JD_MALFORMED also of
 * either prefix, and then JD_TOO_LONG (of any entry kept), JD_NO_ROOM. */
uint32_t jd_translate_index(const uint8_t *pivots, size_t pivots_len,
                            const uint8_t *bucket, size_t bucket_len,
                            const uint8_t *index, size_t index_len,
                            const uint8_t *prefix, size_t prefix_len,
                            const uint8_t *new_prefix, size_t new_prefix_len,
                            uint8_t *dest_bucket, size_t dest_bucket_len,
                            uint8_t *dest_index, size_t dest_index_len, uint64_t *total);

#ifdef __cplusplus
}
#endif

#endif
