//! The safe wrapper's join against the reference.
use super::calls::{slices, JOIN};
use super::random::place;
use crate::cuts::inputs::good_table;
use crate::cuts::records::Records;
use crate::dests::dests_around;
use crate::group::Group;
use crate::inputs::Xorshift;
use crate::table_inputs::{usual_edges, usual_pivots, usual_seconds};
use crate::wrapper::two_into_both;

const SEED: u64 = 20_370_627;

fn each_dest(group: &mut Group, slices: [&[u8]; 4]) {
    let [p1, e1, p2, e2] = slices;
    for dests in dests_around(&JOIN, &slices) {
        two_into_both!(group, dests, join(p1, e1, p2, e2));
    }
}

pub fn joins(group: &mut Group) {
    let edges = usual_edges();
    for p1 in &usual_pivots() {
        for e1 in &edges {
            for p2 in &usual_seconds() {
                for e2 in &edges {
                    each_dest(group, [p1, e1, p2, e2]);
                }
            }
        }
    }
    let mut random = Xorshift::new(SEED);
    for _ in 0..1000 {
        let table = good_table(&mut random);
        if let Some(place) = place(&mut random, &table) {
            let halves = Records::of(&table).halves(place);
            each_dest(group, slices(halves.each_ref()));
        }
    }
}
