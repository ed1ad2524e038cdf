//! The calls on pairs, and on a range under another prefix.
use crate::case::Case;
use crate::inputs::{inputs, prefixes, range, Xorshift};
use crate::key_calls::KEYS;
use crate::lent::Slices;
use crate::sides::case;
use joistdenim::{Pair, PAIR_SIZE, RECORD_SIZE};
use std::rc::Rc;

pub const CALLS: [&str; 4] = [
    "reverse_pair",
    "apply_pair",
    "compose_pairs",
    "translate_pivot_pair",
];

fn pair(old: &[u8], new: &[u8]) -> Rc<[u8]> {
    let pair = Pair::new(old, new).expect("short prefixes");
    pair.as_bytes()[..].into()
}

/// A pair whose old prefix begins the key, and whose new one isn't longer.
fn pair_of_key(random: &mut Xorshift, key: &[u8]) -> Rc<[u8]> {
    let [old, new] = prefixes(random, key);
    pair(&old, &new)
}

/// Two prefixes of full length.
fn full(random: &mut Xorshift, key: usize) -> Slices<1> {
    [pair(&random.bytes(key), &random.bytes(key))]
}

/// A key, and a pair that takes it.
fn applied(random: &mut Xorshift, key: usize) -> Slices<2> {
    let key = random.bytes(key);
    [pair_of_key(random, &key), key.into()]
}

/// Two pairs that take the same key.
fn composed(random: &mut Xorshift, key: usize) -> Slices<2> {
    let key = random.bytes(key);
    [pair_of_key(random, &key), pair_of_key(random, &key)]
}

/// A range, a prefix of its left key, and another one that isn't longer.
fn moved(random: &mut Xorshift, key: usize, kind: usize) -> Slices<4> {
    let [left, right] = range(random, key, kind);
    let [old, new] = prefixes(random, &left);
    [left, right, old, new]
}

pub fn cases(random: &mut Xorshift) -> Vec<Case> {
    let mut cases = vec![];
    let there = |_| [PAIR_SIZE];
    for key in KEYS {
        let size = (key, 0);
        let pairs = inputs(|_| full(random, key));
        cases.push(case!(size, &pairs, reverse_pair(a; dest), |yes| usize::from(yes), there));
        let keys = inputs(|_| applied(random, key));
        cases.push(case!(size, &keys, apply_pair(a, k; dest), |len| len, |len| [len]));
        let pairs = inputs(|_| composed(random, key));
        cases.push(case!(size, &pairs, compose_pairs(a, b; dest), |yes| usize::from(yes), there));
        let ranges = inputs(|kind| moved(random, key, kind));
        cases.push(case!(
            size,
            &ranges,
            translate_pivot_pair(l, r, old, new; dest),
            |records| records,
            |records| [records * RECORD_SIZE]
        ));
    }
    cases
}
