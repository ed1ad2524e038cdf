/*
 * Each function on single keys from C: a normal case, each of its refusals, and which refusal
 * comes first where two apply. Around every destination stand bytes that must not change. Then a
 * key's way through a table: cuts, a new pivot, the halves joined and translations; then pairs,
 * renamed pivots and edges, parent and child, a bucket, its index and a list. Many more cases, of
 * these calls too, are in vectors, which vectors.c runs.
 */
#include "index.h"
#include "pair.h"

/* ---- compare */

static void compare(const char *name, slice a, slice b, uint32_t wanted, int64_t answer)
{
    int64_t order = NUMBER_BEFORE;
    uint32_t got = jd_compare(a.bytes, a.length, b.bytes, b.length, &order);
    result(name, got, (uint64_t)order, wanted, (uint64_t)answer);
}

static void compare_checks(void)
{
    slice a = key(BYTES("A0")), b = key(BYTES("B"));
    slice max = record(JD_MAX, none), no_edge = record(JD_NO_EDGE, none);
    compare("compare: below", a, b, 0, -1);
    compare("compare: above", b, a, 0, 1);
    compare("compare: same", a, a, 0, 0);
    compare("compare: max above a key", max, a, 0, 1);
    compare("compare: max equals max", max, max, 0, 0);
    compare("compare: a prefix comes first", key(BYTES("A")), a, 0, -1);
    compare("compare: 1, first too short", head(a, 65), a, JD_SHAPE, 0);
    compare("compare: 1, second too short", a, head(a, 65), JD_SHAPE, 0);
    compare("compare: 1, empty", none, a, JD_SHAPE, 0);
    compare("compare: 2, no edge", a, no_edge, JD_MALFORMED, 0);
    compare("compare: 2, field 65", record(65, none), a, JD_MALFORMED, 0);
    compare("compare: 2, byte after the key", record(1, BYTES("AB")), a, JD_MALFORMED, 0);
    compare("compare: 2, byte after max", a, record(JD_MAX, BYTES("A")), JD_MALFORMED, 0);
    compare("compare: 1 before 2", no_edge, head(no_edge, 65), JD_SHAPE, 0);
    compare("compare: 1 before 2, other way", head(no_edge, 65), no_edge, JD_SHAPE, 0);
}

/* ---- the key of a record or an entry */

typedef uint32_t key_call(const uint8_t *bytes, size_t length, uint64_t *answer);

static void key_of(const char *name, key_call *call, slice s, uint32_t wanted, uint64_t answer)
{
    uint64_t number = NUMBER_BEFORE;
    uint32_t got = call(s.bytes, s.length, &number);
    result(name, got, number, wanted, answer);
}

static void pivot_key_checks(void)
{
    slice wrong = record(65, none);
    key_of("pivot_key: two bytes", jd_pivot_key, key(BYTES("A0")), 0, 2);
    key_of("pivot_key: empty key", jd_pivot_key, key(none), 0, 0);
    key_of("pivot_key: 64 bytes", jd_pivot_key, key(full), 0, 64);
    key_of("pivot_key: 1, empty", jd_pivot_key, none, JD_SHAPE, 0);
    key_of("pivot_key: 2, field 65", jd_pivot_key, wrong, JD_MALFORMED, 0);
    key_of("pivot_key: 2, max", jd_pivot_key, record(JD_MAX, none), JD_MALFORMED, 0);
    key_of("pivot_key: 2, no edge", jd_pivot_key, record(JD_NO_EDGE, none), JD_MALFORMED, 0);
    key_of("pivot_key: 1 before 2", jd_pivot_key, head(wrong, 65), JD_SHAPE, 0);
}

static void entry_key_checks(void)
{
    slice e = entry(key(BYTES("A0")), 1);
    key_of("entry_key: two bytes", jd_entry_key, e, 0, 2);
    key_of("entry_key: 1, a record alone", jd_entry_key, head(e, JD_RECORD_SIZE), JD_SHAPE, 0);
    key_of("entry_key: 64 bytes", jd_entry_key, entry(key(full), 1), 0, 64);
    e = entry(record(65, none), 1);
    key_of("entry_key: 2, field 65", jd_entry_key, e, JD_MALFORMED, 0);
    key_of("entry_key: 1 before 2", jd_entry_key, head(e, JD_ENTRY_SIZE - 1), JD_SHAPE, 0);
    e = entry(record(JD_MAX, none), 1);
    key_of("entry_key: 2, max", jd_entry_key, e, JD_MALFORMED, 0);
    e = entry(record(JD_NO_EDGE, none), 1);
    key_of("entry_key: 2, no edge", jd_entry_key, e, JD_MALFORMED, 0);
}

/* ---- change of prefix */

static void change(const char *name, slice k, slice old, slice new, size_t dest,
                   uint32_t wanted, slice written)
{
    uint64_t number = NUMBER_BEFORE;
    uint8_t *to = fresh();
    uint32_t got = jd_change_prefix(k.bytes, k.length, old.bytes, old.length, new.bytes,
                                    new.length, to, dest, &number);
    result(name, got, number, wanted, written.length);
    left(name, written);
}

static void change_prefix_checks(void)
{
    slice k = BYTES("A07"), a = BYTES("A"), b = BYTES("B"), c = BYTES("C");
    change("change_prefix: A to C", k, a, c, 3, 0, BYTES("C07"));
    change("change_prefix: room to spare", k, a, c, ROOM, 0, BYTES("C07"));
    change("change_prefix: to a longer one", k, a, BYTES("CDE"), 5, 0, BYTES("CDE07"));
    change("change_prefix: to nothing", k, BYTES("A0"), none, 1, 0, BYTES("7"));
    change("change_prefix: nothing is left", a, a, none, 0, 0, none);
    change("change_prefix: 64 bytes produced", full, none, none, 64, 0, full);
    change("change_prefix: 2, key", over, none, none, ROOM, JD_MALFORMED, none);
    change("change_prefix: 2, old", k, over, c, ROOM, JD_MALFORMED, none);
    change("change_prefix: 2, new", k, a, over, ROOM, JD_MALFORMED, none);
    change("change_prefix: 7", k, b, c, ROOM, JD_NOT_PREFIX, none);
    change("change_prefix: 7, old is longer", a, k, c, ROOM, JD_NOT_PREFIX, none);
    change("change_prefix: 8", k, a, head(full, 63), ROOM, JD_TOO_LONG, none);
    change("change_prefix: 10", k, a, c, 2, JD_NO_ROOM, none);
    change("change_prefix: 2 before 7", k, b, over, ROOM, JD_MALFORMED, none);
    change("change_prefix: 7 before 8", k, b, full, ROOM, JD_NOT_PREFIX, none);
    change("change_prefix: 8 before 10", k, a, full, 0, JD_TOO_LONG, none);
    change("change_prefix: 7 before 10", k, b, c, 0, JD_NOT_PREFIX, none);
}

/* ---- the prefix of a range */

static void lcp(const char *name, slice l, slice r, uint32_t wanted, uint64_t answer)
{
    uint64_t number = NUMBER_BEFORE;
    uint32_t got = jd_pivot_lcp(l.bytes, l.length, r.bytes, r.length, &number);
    result(name, got, number, wanted, answer);
}

static void pivot_lcp_checks(void)
{
    slice max = record(JD_MAX, none), b = key(BYTES("B"));
    lcp("pivot_lcp: common run", BYTES("A0"), key(BYTES("A5")), 0, 1);
    lcp("pivot_lcp: up to the next byte", BYTES("A5"), b, 0, 1);
    lcp("pivot_lcp: with a run of FF", BYTES("A\xff\xff\x07"), b, 0, 3);
    lcp("pivot_lcp: right has a second byte", BYTES("A\xff"), key(BYTES("B\0")), 0, 0);
    lcp("pivot_lcp: up to max", BYTES("\xff\xff\x10"), max, 0, 2);
    lcp("pivot_lcp: from the empty key to max", none, max, 0, 0);
    lcp("pivot_lcp: 1", BYTES("A"), head(max, 65), JD_SHAPE, 0);
    lcp("pivot_lcp: 2, left", over, max, JD_MALFORMED, 0);
    lcp("pivot_lcp: 2, right", BYTES("A"), record(65, none), JD_MALFORMED, 0);
    lcp("pivot_lcp: 2, no edge", BYTES("A"), record(JD_NO_EDGE, none), JD_MALFORMED, 0);
    lcp("pivot_lcp: 1 before 2", over, head(max, 65), JD_SHAPE, 0);
}

/* ---- the upper bound of a prefix */

static void bound(const char *name, slice p, size_t dest, uint32_t wanted, slice written)
{
    uint64_t number = NUMBER_BEFORE;
    uint8_t *to = fresh();
    uint32_t got = jd_shortest_uncommon_prefix(p.bytes, p.length, to, dest, &number);
    result(name, got, number, wanted, 1);
    left(name, written);
}

static void shortest_uncommon_prefix_checks(void)
{
    bound("bound: last byte raised", BYTES("A0"), 66, 0, key(BYTES("A1")));
    bound("bound: FF dropped", BYTES("A\xff\xff"), ROOM, 0, key(BYTES("B")));
    bound("bound: of FF is max", BYTES("\xff\xff"), 66, 0, record(JD_MAX, none));
    bound("bound: of nothing is max", none, 67, 0, record(JD_MAX, none));
    bound("bound: 2", over, 66, JD_MALFORMED, none);
    bound("bound: 10", BYTES("A"), 65, JD_NO_ROOM, none);
    bound("bound: 10, empty", BYTES("A"), 0, JD_NO_ROOM, none);
    bound("bound: 2 before 10", over, 0, JD_MALFORMED, none);
}

/* ---- a key's way: T is cut from both sides and has a pivot put in, and the key is translated
 * before and after */

static void key_through_t(void)
{
    pair t = {pivots_of_t(), edges_of_t()};
    pair right = {TABLE(key(BYTES("A1")), key(BYTES("A5")), key(BYTES("B"))), edges_of_t()};
    pair both = {TABLE(key(BYTES("A1")), key(BYTES("A2"))), key(BYTES("C1"))};
    translate("translate_key: in T", t, BYTES("A17"), 3, 0, BYTES("C17"));
    cut("split_right: T", jd_split_right, t, BYTES("A1"), ample, 0, right);
    cut("split_left: what that left", jd_split_left, right, BYTES("A2"), ample, 0, both);
    translate("translate_key: in what was left", both, BYTES("A17"), 3, 0, BYTES("C17"));
    cut("split_right: 5", jd_split_right, t, BYTES("B"), ample, JD_OUT_OF_RANGE, nothing);
    cut("split_left: 5", jd_split_left, t, BYTES("A0"), ample, JD_OUT_OF_RANGE, nothing);
    translate("translate_key: 5", t, BYTES("B"), ROOM, JD_OUT_OF_RANGE, none);
    slice pivots = TABLE(key(BYTES("A0")), key(BYTES("A1")), key(BYTES("A5")), key(BYTES("B")));
    slice edges = TABLE(key(BYTES("C0")), key(BYTES("C")), record(JD_NO_EDGE, none));
    pair inserted = {pivots, edges};
    cut("insert_pivot: T", jd_insert_pivot, t, BYTES("A1"), ample, 0, inserted);
    translate("translate_key: with a pivot more", inserted, BYTES("A17"), 3, 0, BYTES("C17"));
    cut("insert_pivot: 11", jd_insert_pivot, t, BYTES("A5"), ample, JD_ALREADY_PIVOT, nothing);
}

/* ---- T's halves, put together */

static void halves_joined(void)
{
    pair t = {pivots_of_t(), edges_of_t()};
    slice a5 = key(BYTES("A5"));
    pair first = {TABLE(key(BYTES("A0")), a5), key(BYTES("C"))};
    pair second = {TABLE(a5, key(BYTES("B"))), record(JD_NO_EDGE, none)};
    join("join: T's halves", first, second, ample, 0, t);
    join("join: 13", second, first, ample, JD_NOT_MEETING, nothing);
}

/* ---- the key's pair, undone, composed and applied */

static void pairs_of_t(void)
{
    pair t = {pivots_of_t(), edges_of_t()};
    slice a_to_c = from_to(BYTES("A"), BYTES("C")), c_to_a = from_to(BYTES("C"), BYTES("A"));
    slice longer = from_to(BYTES("A1"), BYTES("P"));
    pair_of("translate: an edge", t, BYTES("A17"), JD_PAIR_SIZE, 0, a_to_c);
    pair_of("translate: no edge", t, BYTES("A6"), JD_PAIR_SIZE, 0, absent_pair);
    pair_of("translate: 5", t, BYTES("B"), ROOM, JD_OUT_OF_RANGE, none);
    applied("apply_pair: the key", a_to_c, BYTES("A17"), 3, 0, BYTES("C17"));
    applied("apply_pair: 7", c_to_a, BYTES("A17"), ROOM, JD_NOT_PREFIX, none);
    reversed("reverse_pair", a_to_c, JD_PAIR_SIZE, 0, c_to_a);
    reversed("reverse_pair: 1", head(a_to_c, 132), ROOM, JD_SHAPE, none);
    composed("compose_pairs", a_to_c, longer, ROOM, 0, from_to(BYTES("P"), BYTES("C1")));
    composed("compose_pairs: 7", c_to_a, a_to_c, ROOM, JD_NOT_PREFIX, none);
}

/* ---- a shelf under another prefix: its range, its pivots and its edges */

static void shelf_moved(void)
{
    pair t = {pivots_of_t(), edges_of_t()};
    slice b = key(BYTES("B")), d = key(BYTES("D")), c0 = key(BYTES("C0")), c5 = key(BYTES("C5"));
    prefixes p = {BYTES("A"), BYTES("C")}, other = {BYTES("B"), BYTES("C")};
    moved("translate_pivot_pair", (range){BYTES("A0"), b}, p, CUT_ROOM, 0, TABLE(c0, d));
    moved("translate_pivot_pair: 9", (range){BYTES("B"), b}, other, 0, JD_NOT_BELOW, none);
    renamed("translate_pivots", t.pivots, p, d, CUT_ROOM, 0, TABLE(c0, c5, d));
    renamed("translate_pivots: 7", t.pivots, other, d, CUT_ROOM, JD_NOT_PREFIX, none);
    filled("translate_edges", t, CUT_ROOM, 0, TABLE(key(BYTES("C")), key(BYTES("A"))));
    filled("translate_edges: 10", t, 131, JD_NO_ROOM, none);
    in_child("parent_keys_in_child_range: yes", t, TABLE(c0, d), 0, 0, 1);
    in_child("parent_keys_in_child_range: no", t, TABLE(c0, d), 1, 0, 0);
    in_child("parent_keys_in_child_range: 6", t, TABLE(c0, d), 2, JD_NO_SUCH_SLOT, 0);
}

/* ---- a drawer under another prefix */

static void drawer_renamed(void)
{
    slice b = entry(key(BYTES("B")), 1), a0 = entry(key(BYTES("A0")), 2);
    slice drawer = TABLE(b, a0), renamed_a0 = entry(key(BYTES("C0")), 2);
    prefixes p = {BYTES("A"), BYTES("C")}, too_long = {BYTES("A"), full};
    kept("translate_bucket", drawer, p, JD_ENTRY_SIZE, 0, renamed_a0);
    kept("translate_bucket: 1", head(drawer, JD_ENTRY_SIZE + 1), p, BUCKET_ROOM, JD_SHAPE, none);
    kept("translate_bucket: 8", drawer, too_long, BUCKET_ROOM, JD_TOO_LONG, none);
    kept("translate_bucket: 10", drawer, p, JD_ENTRY_SIZE - 1, JD_NO_ROOM, none);
    fits("translate_bucket_will_fit: yes", drawer, p, JD_ENTRY_SIZE, 0, 1);
    fits("translate_bucket_will_fit: no", drawer, p, JD_ENTRY_SIZE - 1, 0, 0);
    fits("translate_bucket_will_fit: no, too long", drawer, too_long, BUCKET_ROOM, 0, 0);
    fits("translate_bucket_will_fit: 2", drawer, (prefixes){over, none}, 0, JD_MALFORMED, 0);
}

/* ---- drawers found by shelf */

static void drawers_indexed(void)
{
    indexed x = of_t();
    drawers left = {part(x.bucket, 0, 1), PLACES(0, 1)}, all = {x.bucket, x.index};
    drawers right = {part(x.bucket, 1, 4), PLACES(0, 1, 3)};
    built("build_index", x.pivots, x.bucket, 6, 0, x.index);
    built("build_index: 10", x.pivots, x.bucket, 5, JD_NO_ROOM, none);
    checked("check_index", x, 0);
    checked("check_index: 15", (indexed){x.pivots, x.bucket, none}, JD_WRONG_INDEX);
    slot_has("slot_entries", x, 1, 0, 2);
    slot_has("slot_entries: 6", x, 2, JD_NO_SUCH_SLOT, 0);
    index_cut("cut_index_left", jd_cut_index_left, x, BYTES("A1"), roomy, 0, left);
    index_cut("cut_index_left: 5", jd_cut_index_left, x, none, roomy, JD_OUT_OF_RANGE, unwritten);
    index_cut("cut_index_right", jd_cut_index_right, x, BYTES("A1"), roomy, 0, right);
    index_cut("cut_index_right: 5", jd_cut_index_right, x, none, roomy, JD_OUT_OF_RANGE, unwritten);
    index_moved("translate_index", x, (prefixes){none, none}, roomy, 0, all);
    index_moved("translate_index: 8", x, (prefixes){none, full}, roomy, JD_TOO_LONG, unwritten);
}

/* ---- the list of a table */

static void list_table_checks(void)
{
    pair t = {TABLE(key(BYTES("A0")), key(BYTES("A5"))), key(BYTES("C"))};
    slice text = BYTES("slot\tleft\tright\tshared\tedge\n0\t4130\t4135\t41\t43\n");
    list("list_table: one slot", input(2, t), text.length, 0, text);
    list("list_table: refused", input(1, t), LONGEST_LIST, 0, BYTES("refused\t1\n"));
    list("list_table: 10", input(2, t), text.length - 1, JD_NO_ROOM, none);
}

int main(void)
{
    compare_checks();
    pivot_key_checks();
    entry_key_checks();
    change_prefix_checks();
    pivot_lcp_checks();
    shortest_uncommon_prefix_checks();
    key_through_t();
    halves_joined();
    pairs_of_t();
    shelf_moved();
    drawer_renamed();
    drawers_indexed();
    list_table_checks();
    return report();
}
