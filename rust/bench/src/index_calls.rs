//! The calls on the index beside a bucket.
use crate::bucket_calls::KEYS;
use crate::case::Case;
use crate::inputs::{key_record, Table, Xorshift};
use crate::lent::Slices;
use crate::sides::case;
use joistdenim::{build_index, ENTRY_SIZE, MAX_ENTRIES, NUMBER_SIZE, PLACE_SIZE};
use std::collections::BTreeSet;
use std::rc::Rc;

pub const CALLS: [&str; 6] = [
    "build_index",
    "check_index",
    "slot_entries",
    "cut_index_left",
    "cut_index_right",
    "translate_index",
];
/// How many entries the bucket has: of tables with 2, 8 and 64 pivots.
pub const ENTRIES: [usize; 3] = [8, 64, MAX_ENTRIES];
const ENTRIES_PER_PIVOT: usize = 8;
/// Few, as of the large tables.
const TABLES: usize = 4;

fn pivots(entries: usize) -> usize {
    (entries / ENTRIES_PER_PIVOT).max(joistdenim::MIN_PIVOTS)
}

/// So many entries of the table, rising, over all its slots.
fn bucket(random: &mut Xorshift, table: &Table, entries: usize) -> Vec<u8> {
    let mut keys = BTreeSet::new();
    while keys.len() < entries {
        keys.insert(table.key_inside(random));
    }
    let mut bucket = vec![];
    for key in keys {
        bucket.extend_from_slice(&key_record(&key));
        bucket.extend(random.bytes(NUMBER_SIZE));
    }
    bucket
}

/// A table, a bucket and its index.
fn indexed(random: &mut Xorshift, key: usize, entries: usize) -> (Table, Slices<3>) {
    let table = Table::new(random, key, pivots(entries));
    let bucket = bucket(random, &table, entries);
    let mut index = vec![0; pivots(entries) * PLACE_SIZE];
    build_index(&table.pivots, &bucket, &mut index).expect("a good table and bucket");
    let lent = [table.pivots.clone(), bucket.into(), index.into()];
    (table, lent)
}

fn cases_of(random: &mut Xorshift, size: (usize, usize)) -> Vec<Case> {
    let (mut built, mut asked, mut cut, mut renamed) = (vec![], vec![], vec![], vec![]);
    for _ in 0..TABLES {
        let (table, lent) = indexed(random, size.0, size.1);
        let [p, b, i] = lent.clone();
        built.push([p.clone(), b.clone()]);
        asked.push(lent);
        let key = table.key_inside(random);
        cut.push([p.clone(), b.clone(), i.clone(), key]);
        let prefix = table.prefix();
        let new: Rc<[u8]> = random.bytes(prefix.len()).into();
        renamed.push([p, b, i, prefix, new]);
    }
    let pivots = pivots(size.1);
    let slot = pivots as u64 / 2 - 1;
    // A cut leaves fewer places; the floor writes them all.
    let both = move |count: usize| [count * ENTRY_SIZE, pivots * PLACE_SIZE];
    vec![
        case!(size, &built, build_index(p, b; dest), |n| n, |_| [pivots * PLACE_SIZE]),
        case!(size, &asked, check_index(p, b, i;), |n| n, |_| []),
        case!(size, &asked, slot_entries(p, b, i; ; slot), |part| part.len(), |_| []),
        case!(size, &cut, cut_index_left(p, b, i, k; entries, index), |n| n, both),
        case!(size, &cut, cut_index_right(p, b, i, k; entries, index), |n| n, both),
        case!(size, &renamed, translate_index(p, b, i, old, new; entries, index), |n| n, both),
    ]
}

pub fn cases(random: &mut Xorshift) -> Vec<Case> {
    let mut cases = vec![];
    for key in KEYS {
        for entries in ENTRIES {
            cases.extend(cases_of(random, (key, entries)));
        }
    }
    cases
}
