//! The safe wrapper's list against the reference.
use super::dests::dests_around;
use crate::cuts::inputs::good_table;
use crate::group::Group;
use crate::inputs::Xorshift;
use crate::list_inputs::{joined, usual_inputs};
use crate::wrapper::into_both;

const SEED: u64 = 20_300_627;

fn each_dest(group: &mut Group, input: &[u8]) {
    for dest in dests_around(input) {
        into_both!(group, dest, list_table(input));
    }
}

pub fn list(group: &mut Group) {
    for input in usual_inputs() {
        each_dest(group, &input);
    }
    let mut random = Xorshift::new(SEED);
    for _ in 0..1000 {
        let table = good_table(&mut random);
        each_dest(group, &joined(&table.pivots, &table.edges));
    }
}
