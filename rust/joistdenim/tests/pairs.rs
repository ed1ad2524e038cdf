//! Pairs as values.
mod support;

use joistdenim::{Pair, Refusal, MAX_LEN};
use support::{bytes, key, t};

fn pair(old: &str, new: &str) -> Pair {
    Pair::new(&bytes(old), &bytes(new)).expect("a pair")
}

#[test]
fn a_pair_has_prefixes_of_at_most_64_bytes() {
    let [old, new] = [[0x41; MAX_LEN], [0x43; MAX_LEN]];
    let longest = Pair::new(&old, &new).expect("64 and 64 bytes");
    assert_eq!(longest.prefixes(), Some((&old[..], &new[..])));
    let long = [0x41; MAX_LEN + 1];
    assert_eq!(Pair::new(&long, &new), Err(Refusal::Malformed));
    assert_eq!(Pair::new(&old, &long), Err(Refusal::Malformed));
    let empty = Pair::new(&[], &[]).expect("nothing for nothing");
    assert_eq!(empty.prefixes(), Some((&[][..], &[][..])));
    assert_ne!(empty, Pair::ABSENT);
}

#[test]
fn a_table_has_the_pair_of_a_key() {
    let t = t();
    let (pivots, edges) = t.records();
    assert_eq!(t.translate(&key("413107")), Ok(pair("41", "43")));
    assert_eq!(Pair::of_key(pivots, edges, &[0x41, 0x35]), Ok(Pair::ABSENT));
    let outside = Pair::of_key(pivots, edges, &[0x42]);
    assert_eq!(outside, Err(Refusal::OutOfRange));
}

#[test]
fn pairs_are_reversed_applied_and_composed() {
    let (a, b, none) = (pair("41", "50"), pair("4130", "6001"), Pair::ABSENT);
    assert_eq!(a.reversed(), pair("50", "41"));
    assert_eq!(none.reversed(), none);
    assert_eq!(a.compose(&b), Ok(pair("6001", "5030")));
    assert_eq!(none.compose(&b), Ok(b.reversed()));
    assert_eq!(a.compose(&pair("42", "60")), Err(Refusal::NotPrefix));
    let mut dest = [7; 3];
    assert_eq!(b.apply(&[0x41, 0x30], &mut dest), Ok(2));
    assert_eq!(dest, [0x60, 0x01, 7]);
    let refused = b.apply(&[0x42], &mut dest);
    assert_eq!((refused, dest), (Err(Refusal::NotPrefix), [0x60, 0x01, 7]));
}
