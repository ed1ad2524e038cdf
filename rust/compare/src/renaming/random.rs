//! Random tables and ranges of them, the same in every run: prefixes near what the keys share,
//! new prefixes nearly too long, ends near the last new pivot, and one to three faults.
use super::calls::{TRANSLATE_EDGES, TRANSLATE_PIVOTS, TRANSLATE_PIVOT_PAIR};
use crate::call::Call;
use crate::cuts::inputs::{good_table, key_near, spoil, Table};
use crate::dests::around;
use crate::group::Group;
use crate::inputs::{field_record, near, new_prefix, record, Xorshift, MAX};

const SEED: u64 = 20_320_627;

/// What two keys begin with alike.
fn common<'a>(a: &'a [u8], b: &[u8]) -> &'a [u8] {
    let run = a.iter().zip(b).take_while(|(a, b)| a == b).count();
    &a[..run]
}

/// Most often a part of what is shared, else something near it.
fn prefix(random: &mut Xorshift, shared: &[u8]) -> Vec<u8> {
    match random.below(4) {
        0 => near(random, shared),
        1 => shared[..random.below(shared.len() + 1)].to_vec(),
        _ => shared.to_vec(),
    }
}

/// The pivots' keys but the last's: what is changed.
fn changed(table: &Table) -> &[Vec<u8>] {
    &table.keys[..table.slots()]
}

fn key_end(random: &mut Xorshift, last: &[u8]) -> Vec<u8> {
    let mut end = last.to_vec();
    match random.below(4) {
        0 => end.push(0),
        1 => end.truncate(random.below(end.len() + 1)),
        2 => end = near(random, last),
        _ => {}
    }
    end.truncate(64);
    record(&end).to_vec()
}

/// Arguments of translate_pivots.
pub fn renamed(random: &mut Xorshift, table: &Table) -> [Vec<u8>; 4] {
    let keys = changed(table);
    let (first, last) = (&keys[0], &keys[keys.len() - 1]);
    let prefix = prefix(random, common(first, last));
    let longest = keys.iter().map(Vec::len).max().unwrap_or(0);
    let new = new_prefix(random, &prefix, longest);
    let moved = [&new, last.get(prefix.len()..).unwrap_or(&[])].concat();
    let end = match random.below(3) {
        0 => key_end(random, &moved),
        1 => key_end(random, &[0xFF, 0xFF]),
        _ => field_record(MAX).to_vec(),
    };
    [table.pivots.clone(), prefix, new, end]
}

/// The case whole, and then with one to three faults: slices too long or too short, and faults in
/// records.
fn whole_and_spoiled<const N: usize>(
    group: &mut Group,
    call: &Call,
    random: &mut Xorshift,
    mut slices: [Vec<u8>; N],
) {
    around(group, call, &slices.each_ref().map(|slice| &slice[..]));
    for _ in 0..=random.below(3) {
        let slice = &mut slices[random.below(N)];
        if slice.len() >= 66 {
            spoil(random, slice);
        } else {
            match random.below(3) {
                0 => slice.resize(65 + random.below(3), 0),
                1 => *slice = near(random, slice),
                _ => slice.truncate(random.below(slice.len() + 1)),
            }
        }
    }
    around(group, call, &slices.each_ref().map(|slice| &slice[..]));
}

pub fn pivots(group: &mut Group, count: usize) {
    let mut random = Xorshift::new(SEED);
    for _ in 0..count {
        let table = good_table(&mut random);
        for _ in 0..3 {
            let slices = renamed(&mut random, &table);
            whole_and_spoiled(group, &TRANSLATE_PIVOTS, &mut random, slices);
        }
    }
}

pub fn edges(group: &mut Group, count: usize) {
    let mut random = Xorshift::new(SEED);
    for _ in 0..count {
        let table = good_table(&mut random);
        let slices = [table.pivots, table.edges];
        whole_and_spoiled(group, &TRANSLATE_EDGES, &mut random, slices);
    }
}

/// Ranges between keys near the pivots of a table, left below right or not.
pub fn ranges(group: &mut Group, count: usize) {
    let mut random = Xorshift::new(SEED);
    for _ in 0..count {
        let table = good_table(&mut random);
        let (left, right) = (key_near(&mut random, &table), key_near(&mut random, &table));
        let prefix = prefix(&mut random, common(&left, &right));
        let longest = left.len().max(right.len());
        let new = new_prefix(&mut random, &prefix, longest);
        let right = match random.below(4) {
            0 => field_record(MAX),
            _ => record(&right),
        };
        let slices = [left, right.to_vec(), prefix, new];
        whole_and_spoiled(group, &TRANSLATE_PIVOT_PAIR, &mut random, slices);
    }
}
