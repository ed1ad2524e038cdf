/*
 * Two calls in a row from C: the second is lent exactly what the first wrote. Single cuts,
 * insertions and translations are in vectors.
 */
#include "cuts.h"

static void two_orders(void)
{
    slice l = BYTES("A4"), r = BYTES("A6"), a5 = key(BYTES("A5"));
    slice cut_edges = TABLE(key(BYTES("C4")), record(JD_NO_EDGE, none));
    pair right = {TABLE(key(l), a5, key(BYTES("B"))), cut_edges};
    pair left = {TABLE(key(BYTES("A0")), a5, key(r)), edges_of_t()};
    pair both = {TABLE(key(l), a5, key(r)), cut_edges};
    two_cuts("right, then left", t(), jd_split_right, l, right, jd_split_left, r, 0, both);
    two_cuts("left, then right", t(), jd_split_left, r, left, jd_split_right, l, 0, both);
}

/* The plain cut's edge has 65 bytes: each order ends at the cut that makes it. */
static void two_orders_refused(void)
{
    slice l = BYTES("A4"), r = BYTES("A6");
    pair long_edge = t_with(full);
    pair left = {TABLE(key(BYTES("A0")), key(BYTES("A5")), key(r)), long_edge.edges};
    cut("right first: 8", jd_split_right, long_edge, l, ample, JD_TOO_LONG, nothing);
    two_cuts("left, then right: 8", long_edge, jd_split_left, r, left, jd_split_right, l,
             JD_TOO_LONG, nothing);
}

/* Of what an insertion left, cuts at the new pivot leave what T's do. */
static void cuts_at_a_new_pivot(void)
{
    slice a1 = BYTES("A1"), a5 = key(BYTES("A5")), b = key(BYTES("B"));
    pair new = {TABLE(key(BYTES("A0")), key(a1), a5, b),
                TABLE(key(BYTES("C0")), key(BYTES("C")), record(JD_NO_EDGE, none))};
    pair below = {TABLE(key(BYTES("A0")), key(a1)), key(BYTES("C0"))};
    pair from = {TABLE(key(a1), a5, b), edges_of_t()};
    two_cuts("left cut at the pivot", t(), jd_insert_pivot, a1, new, jd_split_left, a1, 0, below);
    two_cuts("right cut at the pivot", t(), jd_insert_pivot, a1, new, jd_split_right, a1, 0, from);
}

int main(void)
{
    two_orders();
    two_orders_refused();
    cuts_at_a_new_pivot();
    return report();
}
