//! Halves of random tables, well formed and with one to three faults, the same in every run; and
//! destinations around what is written.
use super::calls::{slices, JOIN};
use crate::cuts::inputs::{good_table, good_table_of, key_near, spoil, Table};
use crate::cuts::records::Records;
use crate::dests::around;
use crate::group::Group;
use crate::inputs::{field_record, record, Xorshift, MAX};
use crate::table_inputs::with;
use reference::MAX_PIVOTS;

const SEED: u64 = 20_350_627;

/// A place at which both halves are tables, if there is one.
pub fn place(random: &mut Xorshift, table: &Table) -> Option<usize> {
    let count = table.slots() + 1;
    let least = count.saturating_sub(MAX_PIVOTS).max(1);
    let most = (count - 1).min(MAX_PIVOTS);
    (least < most).then(|| least + random.below(most - least))
}

/// The halves of a table. Now and then they don't meet: they overlap or leave a gap, or the pivot
/// where they meet is another one, or max, in one of them.
fn halves(random: &mut Xorshift, table: &Table) -> Option<[Records; 2]> {
    let whole = Records::of(table);
    let (first, second) = (place(random, table)?, place(random, table)?);
    let other = key_near(random, table);
    let [mut left, mut right] = whole.halves(first);
    match random.below(8) {
        0 => right = whole.from(second),
        1 => left.pivots = with(&left.pivots, first, &record(&other)),
        2 => left.pivots = with(&left.pivots, first, &field_record(MAX)),
        3 => right.pivots = with(&right.pivots, 0, &record(&other)),
        _ => {}
    }
    Some([left, right])
}

pub fn good(group: &mut Group, count: usize) {
    each_good(count, |halves| around(group, &JOIN, &slices(halves)));
}

pub fn around_most(group: &mut Group, count: usize) {
    let sorts = each_around_most(count, |halves| around(group, &JOIN, &slices(halves)));
    group.sorts(&sorts);
}

pub fn spoiled(group: &mut Group, count: usize) {
    each_spoiled(count, |halves| around(group, &JOIN, &slices(halves)));
}

pub fn each_good(count: usize, mut body: impl FnMut([&Records; 2])) {
    let mut random = Xorshift::new(SEED);
    for _ in 0..count {
        let table = good_table(&mut random);
        for _ in 0..4 {
            if let Some(halves) = halves(&mut random, &table) {
                body(halves.each_ref());
            }
        }
    }
}

/// Halves of tables of 62 to 67 pivots; and how many tables had more than 64, and how many not.
pub fn each_around_most(count: usize, mut body: impl FnMut([&Records; 2])) -> [usize; 2] {
    let mut random = Xorshift::new(SEED);
    let mut sorts = [0; 2];
    for _ in 0..count {
        let pivots = 62 + random.below(6);
        let table = good_table_of(&mut random, pivots);
        sorts[usize::from(table.slots() < MAX_PIVOTS)] += 1;
        if let Some(halves) = halves(&mut random, &table) {
            body(halves.each_ref());
        }
    }
    sorts
}

pub fn each_spoiled(count: usize, mut body: impl FnMut([&Records; 2])) {
    let mut random = Xorshift::new(SEED);
    for _ in 0..count {
        let table = good_table(&mut random);
        let Some([mut first, mut second]) = halves(&mut random, &table) else {
            continue;
        };
        for _ in 0..=random.below(3) {
            let slice = match random.below(4) {
                0 => &mut first.pivots,
                1 => &mut first.edges,
                2 => &mut second.pivots,
                _ => &mut second.edges,
            };
            if slice.len() >= 66 {
                spoil(&mut random, slice);
            }
        }
        body([&first, &second]);
    }
}
