//! The calls on single keys.
use crate::case::Case;
use crate::inputs::{inputs, key_record, prefixes, range, Xorshift};
use crate::sides::case;
use joistdenim::{MAX_LEN, RECORD_SIZE};
use std::rc::Rc;

pub const CALLS: [&str; 4] = [
    "compare",
    "pivot_lcp",
    "change_prefix",
    "shortest_uncommon_prefix",
];
pub const KEYS: [usize; 4] = [3, 8, 32, MAX_LEN];

/// Two keys with a common run of any length.
fn orders(random: &mut Xorshift, key: usize) -> [Rc<[u8]>; 2] {
    let a = random.bytes(key);
    let run = random.below(key + 1);
    let b = [&a[..run], &random.bytes(key - run)].concat();
    [key_record(&a), key_record(&b)]
}

/// A key, a prefix of it, and another one.
fn change(random: &mut Xorshift, key: usize) -> [Rc<[u8]>; 3] {
    let key = random.bytes(key);
    let [old, new] = prefixes(random, &key);
    [key.into(), old, new]
}

/// A prefix; one in four ends with FF, or is FF alone.
fn bounded(random: &mut Xorshift, key: usize, kind: usize) -> [Rc<[u8]>; 1] {
    let mut prefix = random.bytes(key);
    if kind == 0 {
        prefix[random.below(key)..].fill(0xFF);
    }
    [prefix.into()]
}

pub fn cases(random: &mut Xorshift) -> Vec<Case> {
    let mut cases = vec![];
    for key in KEYS {
        let size = (key, 0);
        let pairs = inputs(|_| orders(random, key));
        cases.push(case!(size, &pairs, compare(a, b;), |order| order as usize, |_| []));
        let ranges = inputs(|kind| range(random, key, kind));
        cases.push(case!(size, &ranges, pivot_lcp(l, r;), |prefix| prefix.len(), |_| []));
        let changes = inputs(|_| change(random, key));
        cases.push(case!(size, &changes, change_prefix(k, old, new; dest), |len| len, |len| [len]));
        let prefixes = inputs(|kind| bounded(random, key, kind));
        cases.push(case!(
            size,
            &prefixes,
            shortest_uncommon_prefix(prefix; dest),
            |records| records,
            |records| [records * RECORD_SIZE]
        ));
    }
    cases
}
