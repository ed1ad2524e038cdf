//! Random parents, well formed and with one to three faults, and children around the range of one
//! of their slots; the same in every run.
use super::calls::PARENT_KEYS_IN_CHILD_RANGE;
use super::children::child;
use crate::asked::Asked;
use crate::cuts::inputs::{good_table, spoil};
use crate::group::Group;
use crate::inputs::Xorshift;

const SEED: u64 = 20_340_627;

fn ask(group: &mut Group, slices: [&[u8]; 3], slot: u64) {
    let dest = 0;
    let asked = Asked::new(&slices, slot, dest);
    group.case(&PARENT_KEYS_IN_CHILD_RANGE, &asked);
}

pub fn good(group: &mut Group, count: usize) {
    let mut random = Xorshift::new(SEED);
    for _ in 0..count {
        let table = good_table(&mut random);
        for _ in 0..6 {
            let slot = random.below(table.slots());
            let child = child(&mut random, &table, slot);
            for slot in [slot, table.slots()] {
                ask(group, [&table.pivots, &table.edges, &child], slot as u64);
            }
        }
    }
}

pub fn spoiled(group: &mut Group, count: usize) {
    let mut random = Xorshift::new(SEED);
    for _ in 0..count {
        let table = good_table(&mut random);
        let slot = random.below(table.slots());
        let mut child = child(&mut random, &table, slot);
        let (mut pivots, mut edges) = (table.pivots, table.edges);
        for _ in 0..=random.below(3) {
            let slice = [&mut pivots, &mut edges, &mut child];
            let slice = slice
                .into_iter()
                .nth(random.below(3))
                .expect("one of three");
            if slice.len() >= 66 {
                spoil(&mut random, slice);
            }
        }
        for slot in [slot as u64, 64 + random.next() % 3, random.next(), u64::MAX] {
            ask(group, [&pivots, &edges, &child], slot);
        }
    }
}
