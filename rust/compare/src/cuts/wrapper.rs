//! The safe wrapper's cuts, insertion and translation against the reference.
use super::calls::{INSERT_PIVOT, SPLIT_LEFT, SPLIT_RIGHT};
use super::inputs::{good_table, key_near};
use crate::dests::dests_around;
use crate::group::Group;
use crate::inputs::Xorshift;
use crate::table_inputs::{usual_edges, usual_pivots};
use crate::translation::calls::{TRANSLATE, TRANSLATE_KEY};
use crate::wrapper::{into_both, two_into_both};

const SEED: u64 = 20_280_627;

fn each_call(group: &mut Group, slices: [&[u8]; 3]) {
    let [p, e, k] = slices;
    for dests in dests_around(&SPLIT_LEFT, &slices) {
        two_into_both!(group, dests, split_left(p, e, k));
    }
    for dests in dests_around(&SPLIT_RIGHT, &slices) {
        two_into_both!(group, dests, split_right(p, e, k));
    }
    for dests in dests_around(&INSERT_PIVOT, &slices) {
        two_into_both!(group, dests, insert_pivot(p, e, k));
    }
    for [dest, _] in dests_around(&TRANSLATE_KEY, &slices) {
        into_both!(group, dest, translate_key(p, e, k));
    }
    for [dest, _] in dests_around(&TRANSLATE, &slices) {
        into_both!(group, dest, translate(p, e, k));
    }
}

pub fn cuts(group: &mut Group) {
    for p in &usual_pivots() {
        for e in &usual_edges() {
            for k in [&[][..], &[0x41, 0x30], &[0x41, 0x31], &[0x42], &[0x41; 65]] {
                each_call(group, [p, e, k]);
            }
        }
    }
    let mut random = Xorshift::new(SEED);
    for _ in 0..1000 {
        let table = good_table(&mut random);
        let key = key_near(&mut random, &table);
        each_call(group, [&table.pivots, &table.edges, &key]);
    }
}
