//! Random tables, well formed and with one to three faults, the same in every run; keys near
//! their pivots, and destinations around what is written.
use super::inputs::{good_table, key_near, spoil};
use crate::call::Call;
use crate::dests::around;
use crate::group::Group;
use crate::inputs::Xorshift;

const SEED: u64 = 20_260_627;
const KEYS: usize = 4;

/// Pivots, edges and a key.
type Slices<'a> = [&'a [u8]; 3];

pub fn good(group: &mut Group, call: &Call, count: usize) {
    each_good(count, |slices| around(group, call, &slices));
}

pub fn spoiled(group: &mut Group, call: &Call, count: usize) {
    each_spoiled(count, |slices| around(group, call, &slices));
}

pub fn each_good(count: usize, mut body: impl FnMut(Slices)) {
    let mut random = Xorshift::new(SEED);
    for _ in 0..count {
        let table = good_table(&mut random);
        for _ in 0..KEYS {
            let key = key_near(&mut random, &table);
            body([&table.pivots, &table.edges, &key]);
        }
    }
}

pub fn each_spoiled(count: usize, mut body: impl FnMut(Slices)) {
    let mut random = Xorshift::new(SEED);
    for _ in 0..count {
        let table = good_table(&mut random);
        let mut key = key_near(&mut random, &table);
        let (mut pivots, mut edges) = (table.pivots, table.edges);
        for _ in 0..=random.below(3) {
            match random.below(8) {
                0 => key.resize(65 + random.below(3), 0),
                1..=4 if pivots.len() >= 66 => spoil(&mut random, &mut pivots),
                _ if edges.len() >= 66 => spoil(&mut random, &mut edges),
                _ => {}
            }
        }
        body([&pivots, &edges, &key]);
    }
}
