/*
 * Every function of the headers by its name, with how many slices and destinations it is lent: a row
 * for each, with its arguments in order.
 */
#ifndef CALLS_H
#define CALLS_H

#include "check.h"

#define MOST_SLICES 5
#define MOST_DESTS 2
#define MOST_ANSWERS 2

typedef struct {
    uint8_t *bytes;
    size_t length;
} dest;

typedef struct {
    slice slices[MOST_SLICES];
    uint64_t number;
    dest dests[MOST_DESTS];
    uint64_t *answers;
} asked;

#define S(i) a->slices[i].bytes, a->slices[i].length
#define D(i) a->dests[i].bytes, a->dests[i].length
#define NUMBER a->number
/* Behind the first number stands a guard, and then the second. */
#define ANSWER(i) (a->answers + 2 * (i))

#define EACH_CALL(CALL) \
    CALL(compare, 2, 0, S(0), S(1), (int64_t *)ANSWER(0)) \
    CALL(pivot_key, 1, 0, S(0), ANSWER(0)) \
    CALL(entry_key, 1, 0, S(0), ANSWER(0)) \
    CALL(change_prefix, 3, 1, S(0), S(1), S(2), D(0), ANSWER(0)) \
    CALL(pivot_lcp, 2, 0, S(0), S(1), ANSWER(0)) \
    CALL(shortest_uncommon_prefix, 1, 1, S(0), D(0), ANSWER(0)) \
    CALL(wf_pivots, 1, 0, S(0)) \
    CALL(wf_edges, 2, 0, S(0), S(1)) \
    CALL(contains_all_keys, 1, 0, S(0), ANSWER(0)) \
    CALL(contains_range, 3, 0, S(0), S(1), S(2), ANSWER(0)) \
    CALL(bounded_key, 2, 0, S(0), S(1), ANSWER(0)) \
    CALL(valid_left_cut_off_key, 2, 0, S(0), S(1), ANSWER(0)) \
    CALL(pivot_insertable, 2, 0, S(0), NUMBER, S(1), ANSWER(0)) \
    CALL(get_key, 1, 0, S(0), NUMBER, ANSWER(0)) \
    CALL(init_pivot_table, 0, 1, D(0), ANSWER(0)) \
    CALL(route, 2, 0, S(0), S(1), ANSWER(0)) \
    CALL(cutoff_for_left, 2, 0, S(0), S(1), ANSWER(0)) \
    CALL(cutoff_for_right, 2, 0, S(0), S(1), ANSWER(0)) \
    CALL(split_left, 3, 2, S(0), S(1), S(2), D(0), D(1), ANSWER(0)) \
    CALL(split_right, 3, 2, S(0), S(1), S(2), D(0), D(1), ANSWER(0)) \
    CALL(insert_pivot, 3, 2, S(0), S(1), S(2), D(0), D(1), ANSWER(0)) \
    CALL(join, 4, 2, S(0), S(1), S(2), S(3), D(0), D(1), ANSWER(0)) \
    CALL(translate, 3, 1, S(0), S(1), S(2), D(0), ANSWER(0)) \
    CALL(translate_key, 3, 1, S(0), S(1), S(2), D(0), ANSWER(0)) \
    CALL(reverse_pair, 1, 1, S(0), D(0), ANSWER(0)) \
    CALL(apply_pair, 2, 1, S(0), S(1), D(0), ANSWER(0)) \
    CALL(compose_pairs, 2, 1, S(0), S(1), D(0), ANSWER(0)) \
    CALL(translate_pivot_pair, 4, 1, S(0), S(1), S(2), S(3), D(0), ANSWER(0)) \
    CALL(translate_pivots, 4, 1, S(0), S(1), S(2), S(3), D(0), ANSWER(0)) \
    CALL(translate_edges, 2, 1, S(0), S(1), D(0), ANSWER(0)) \
    CALL(parent_keys_in_child_range, 3, 0, S(0), S(1), S(2), NUMBER, ANSWER(0)) \
    CALL(translate_bucket, 3, 1, S(0), S(1), S(2), D(0), ANSWER(0)) \
    CALL(translate_bucket_will_fit, 3, 0, S(0), S(1), S(2), NUMBER, ANSWER(0)) \
    CALL(build_index, 2, 1, S(0), S(1), D(0), ANSWER(0)) \
    CALL(check_index, 3, 0, S(0), S(1), S(2), ANSWER(0)) \
    CALL(slot_entries, 3, 0, S(0), S(1), S(2), NUMBER, ANSWER(0)) \
    CALL(cut_index_left, 4, 2, S(0), S(1), S(2), S(3), D(0), D(1), ANSWER(0)) \
    CALL(cut_index_right, 4, 2, S(0), S(1), S(2), S(3), D(0), D(1), ANSWER(0)) \
    CALL(translate_index, 5, 2, S(0), S(1), S(2), S(3), S(4), D(0), D(1), ANSWER(0)) \
    CALL(list_table, 1, 1, S(0), D(0), ANSWER(0))

#define RUN(name, slices, dests, ...) \
    static uint32_t run_##name(const asked *a) \
    { \
        return jd_##name(__VA_ARGS__); \
    }
EACH_CALL(RUN)

#define ROW(name, slices, dests, ...) {#name, slices, dests, run_##name},
static const struct call {
    const char *name;
    size_t slices, dests;
    uint32_t (*run)(const asked *a);
} calls[] = {EACH_CALL(ROW)};
#define CALL_COUNT (sizeof calls / sizeof *calls)

#endif
