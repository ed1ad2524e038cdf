//! Random tables, well formed and with faults, the same in every run; whole, cut short,
//! lengthened and with bytes changed.
use super::dests::around;
use crate::cuts::inputs::{good_table, spoil};
use crate::group::Group;
use crate::inputs::Xorshift;
use crate::list_inputs::joined;

const SEED: u64 = 20_290_627;

pub fn good(group: &mut Group, count: usize) {
    each_good(count, |input| around(group, input));
}

pub fn spoiled(group: &mut Group, count: usize) {
    each_spoiled(count, |input| around(group, input));
}

pub fn each_good(count: usize, mut body: impl FnMut(&[u8])) {
    let mut random = Xorshift::new(SEED);
    for _ in 0..count {
        let table = good_table(&mut random);
        body(&joined(&table.pivots, &table.edges));
    }
}

/// One fault in the pivots, in the edges, or in the input.
fn spoiled_input(random: &mut Xorshift) -> Vec<u8> {
    let table = good_table(random);
    let (mut pivots, mut edges) = (table.pivots, table.edges);
    match random.below(4) {
        0 => spoil(random, &mut pivots),
        1 => spoil(random, &mut edges),
        _ => {}
    }
    let mut input = joined(&pivots, &edges);
    match random.below(8) {
        0 => input.truncate(random.below(input.len())),
        1 => input.extend(vec![0; 1 + random.below(140)]),
        2 => input[random.below(2)] = random.next() as u8,
        3 => {
            let place = random.below(input.len());
            input[place] = random.next() as u8;
        }
        _ => {}
    }
    input
}

pub fn each_spoiled(count: usize, mut body: impl FnMut(&[u8])) {
    let mut random = Xorshift::new(SEED);
    for _ in 0..count {
        body(&spoiled_input(&mut random));
    }
}
