//! All pairs of prefixes of up to two bytes over 00, 01, FE, FF, and the absent one; each also
//! with other bytes where nothing is looked at.
use super::calls::{APPLY_PAIR, COMPOSE_PAIRS, REVERSE_PAIR};
use crate::dests::around;
use crate::group::Group;
use crate::inputs::small_keys;
use crate::pair_inputs::{rubbish, small_pairs, PairRecord};

fn pairs_and_rubbish() -> Vec<[PairRecord; 2]> {
    let pairs = small_pairs();
    pairs.iter().map(|pair| [*pair, rubbish(pair)]).collect()
}

pub fn reversed(group: &mut Group) {
    for pair in pairs_and_rubbish().as_flattened() {
        around(group, &REVERSE_PAIR, &[pair]);
    }
}

/// With all keys of up to three bytes.
pub fn applied(group: &mut Group) {
    let keys = small_keys(3);
    for pair in pairs_and_rubbish().as_flattened() {
        for key in &keys {
            around(group, &APPLY_PAIR, &[pair, key]);
        }
    }
}

pub fn composed(group: &mut Group) {
    let pairs = pairs_and_rubbish();
    for [a, a_rubbish] in &pairs {
        for [b, b_rubbish] in &pairs {
            group.compare(&COMPOSE_PAIRS, &[a, b], 133);
            group.compare(&COMPOSE_PAIRS, &[a_rubbish, b], 134);
            group.compare(&COMPOSE_PAIRS, &[a_rubbish, b_rubbish], 133);
            group.compare(&COMPOSE_PAIRS, &[a, b_rubbish], 132);
        }
    }
}
