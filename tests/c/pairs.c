/*
 * Records of pairs from C, each byte in turn: every flag and every length that a pair may not have,
 * slices and destinations of every length. Single cases are in vectors/pairs.vectors and
 * vectors/translation.vectors.
 */
#include "pair.h"

/* Made anew for each check, since only the last pairs made stand. */
static slice a_to_c(void)
{
    return from_to(BYTES("A"), BYTES("C"));
}

/* The pair is refused wherever it stands. */
static void refuses(const char *name, slice p, uint32_t wanted)
{
    slice good = a_to_c();
    reversed(name, p, ROOM, wanted, none);
    applied(name, p, BYTES("A"), ROOM, wanted, none);
    composed(name, p, good, ROOM, wanted, none);
    composed(name, good, p, ROOM, wanted, none);
}

static void flags(void)
{
    for (unsigned flag = 2; flag < 256; flag++) {
        refuses("2, a flag", pair_with(a_to_c(), 0, flag), JD_MALFORMED);
        refuses("2, the flag of an absent pair", pair_with(absent_pair, 0, flag), JD_MALFORMED);
    }
}

static void lengths_of_prefixes(void)
{
    for (unsigned length = 65; length < 256; length++) {
        refuses("2, the old length", pair_with(a_to_c(), 2, length), JD_MALFORMED);
        refuses("2, the new length", pair_with(a_to_c(), 4, length), JD_MALFORMED);
    }
}

static void lengths_of_slices(void)
{
    pair t = {pivots_of_t(), edges_of_t()};
    for (size_t length = 0; length < JD_PAIR_SIZE; length++) {
        slice p = a_to_c();
        refuses("1, every length", head(p, length), JD_SHAPE);
        reversed("10, every length", p, length, JD_NO_ROOM, none);
        composed("10, every length", absent_pair, p, length, JD_NO_ROOM, none);
        pair_of("10, every length", t, BYTES("A1"), length, JD_NO_ROOM, none);
        pair_of("10, every length, absent", t, BYTES("A6"), length, JD_NO_ROOM, none);
    }
}

/* The bytes of a record, one by one. */
static void record_of_a_pair(void)
{
    slice p = from_to(BYTES("C"), BYTES("A0"));
    uint64_t there = NUMBER_BEFORE;
    uint8_t *to = fresh(), wanted[JD_PAIR_SIZE] = {1, 0, 2, 0, 1, 'A', '0'};
    wanted[69] = 'C';
    count(jd_reverse_pair(p.bytes, p.length, to, ROOM, &there) == 0 && there == 1, "reversed");
    for (size_t i = 0; i < JD_PAIR_SIZE; i++)
        count(to[i] == wanted[i], "a byte of the pair from 41 30 to 43");
}

int main(void)
{
    record_of_a_pair();
    flags();
    lengths_of_prefixes();
    lengths_of_slices();
    return report();
}
