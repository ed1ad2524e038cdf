//! All small ranges and tables, with prefixes that begin them or not, new prefixes that end with
//! FF or are nearly too long, and several ends.
use super::calls::{TRANSLATE_EDGES, TRANSLATE_PIVOTS, TRANSLATE_PIVOT_PAIR};
use crate::cuts::small::{each_edges, tables, SHARED};
use crate::dests::around;
use crate::group::Group;
use crate::inputs::{counted, field_record, record, small_keys, Record, MAX};
use crate::table_inputs::{pivots_of_t, rising};

/// New prefixes: their upper bounds are keys of all sorts, and max.
const NEW: [&[u8]; 9] = [
    &[],
    &[0x43],
    &[0x43, 0xFF],
    &[0xFE, 0xFF, 0xFF],
    &[0xFF],
    &[0xFF, 0xFF],
    &[0x44; 62],
    &[0xFF; 63],
    &[0x45; 64],
];

fn and_max(keys: &[Vec<u8>]) -> Vec<Record> {
    let mut records: Vec<Record> = keys.iter().map(|key| record(key)).collect();
    records.push(field_record(MAX));
    records
}

/// Every left key and right element of up to two bytes, with every such prefix.
pub fn ranges(group: &mut Group) {
    let keys = small_keys(2);
    for left in &keys {
        for right in &and_max(&keys) {
            for prefix in &keys {
                for new_prefix in NEW {
                    around(
                        group,
                        &TRANSLATE_PIVOT_PAIR,
                        &[left, right, prefix, new_prefix],
                    );
                }
            }
        }
    }
}

/// Every length of prefix and new prefix, and of a left key and a right one that go on from the
/// prefix, around the limit.
pub fn lengths(group: &mut Group) {
    let (long, new) = (counted(64), [0xEE; 65]);
    for prefix in 0..=64 {
        for new_len in 0..=65 {
            for left in [prefix, prefix + 1, 63, 64] {
                for right in [left + 1, 63, 64] {
                    let left = &long[..left.clamp(prefix, 64)];
                    let right = &record(&long[..right.min(64)]);
                    let slices: [&[u8]; 4] = [left, right, &long[..prefix], &new[..new_len]];
                    group.compare(&TRANSLATE_PIVOT_PAIR, &slices, 132);
                }
            }
        }
    }
}

/// Ends below, at and above the new pivots, and max.
fn ends(new_prefix: &[u8]) -> Vec<Record> {
    let tails: [&[u8]; 5] = [&[], &[0x00, 0xFF], &[0x41], &[0x41, 0x01], &[0xFF, 0xFF]];
    let end = |tail| [new_prefix, tail].concat();
    let mut keys: Vec<Vec<u8>> = tails.into_iter().map(end).collect();
    keys.retain(|key| key.len() <= 64);
    keys.extend([vec![], vec![0xFF; 64]]);
    and_max(&keys)
}

/// Every small table with prefixes that begin all its pivots, some, or none.
pub fn pivots(group: &mut Group) {
    for shared in SHARED {
        let prefixes = [
            vec![],
            shared.to_vec(),
            [shared, &[0x41]].concat(),
            vec![0xFF, 0xFF],
        ];
        for table in tables(shared) {
            for prefix in &prefixes {
                for new_prefix in NEW {
                    for end in &ends(new_prefix) {
                        let slices: [&[u8]; 4] = [&table.pivots, prefix, new_prefix, end];
                        let room = table.pivots.len();
                        group.compare(&TRANSLATE_PIVOTS, &slices, room);
                        group.compare(&TRANSLATE_PIVOTS, &slices, room - 1);
                    }
                }
            }
        }
    }
}

/// Every small table with each sort of edge in each slot; some are refused 4.
pub fn edges(group: &mut Group) {
    for shared in SHARED {
        for mut table in tables(shared) {
            each_edges(&mut table, &[&[], &[0x43], &[0x45; 64]], |table| {
                around(group, &TRANSLATE_EDGES, &[&table.pivots, &table.edges]);
            });
        }
    }
}

/// Destinations of every length around T's and up to 64 pivots' records.
pub fn every_length(group: &mut Group) {
    let end = record(&[0x44]);
    for pivots in [pivots_of_t(), rising(2), rising(64)] {
        let slices: [&[u8]; 4] = [&pivots, &[0x41], &[0x43], &end];
        for dest in 0..=pivots.len() + 70 {
            group.compare(&TRANSLATE_PIVOTS, &slices, dest);
        }
    }
}
