//! All small tables with all small keys, and larger tables with all keys of up to four bytes.
use super::calls::{CONTAINS_RANGE, INIT_PIVOT_TABLE, WF_EDGES};
use crate::asked::Asked;
use crate::call::Call;
use crate::group::Group;
use crate::inputs::{field_record, record, small_keys, Record, Xorshift, MAX, NO_EDGE};
use crate::table_inputs::with;

/// Every table of this many pivots over keys of up to `longest` bytes, rising or not, the last
/// pivot also max.
fn tables(count: u32, longest: usize) -> Vec<Vec<u8>> {
    let mut records: Vec<Record> = small_keys(longest).iter().map(|key| record(key)).collect();
    let keys = records.len();
    records.push(field_record(MAX));
    let mut tables = vec![];
    for mut way in 0..keys.pow(count - 1) * records.len() {
        let last = records[way % records.len()];
        way /= records.len();
        let mut table = vec![];
        for _ in 1..count {
            table.extend(records[way % keys]);
            way /= keys;
        }
        table.extend(last);
        tables.push(table);
    }
    tables
}

fn every_place(group: &mut Group, call: &Call, slices: &[&[u8]], places: u64) {
    let dest = 0;
    let places = if call.takes_place { places } else { 0 };
    for place in 0..=places {
        group.case(call, &Asked::new(slices, place, dest));
    }
}

/// Every key of up to two bytes in every table of two and three such pivots, and in every table
/// of four pivots of one byte.
pub fn all_keys(group: &mut Group, call: &Call) {
    let keys = small_keys(2);
    for (count, longest) in [(2, 2), (3, 2), (4, 1)] {
        for table in tables(count, longest) {
            for key in &keys {
                every_place(group, call, &[&table, key], u64::from(count) + 1);
            }
        }
    }
}

/// Every key of up to four bytes in rising tables of 2 to 64 such pivots.
pub fn large(group: &mut Group, call: &Call) {
    let mut keys = small_keys(4);
    keys.sort();
    let mut random = Xorshift::new(64);
    for count in 2..=64 {
        let mut chosen: Vec<&Vec<u8>> = vec![];
        while chosen.len() < count {
            chosen.push(&keys[random.below(keys.len())]);
            chosen.sort();
            chosen.dedup();
        }
        let mut table: Vec<u8> = chosen.iter().flat_map(|key| record(key)).collect();
        if count % 3 == 0 {
            table = with(&table, count - 1, &field_record(MAX));
        }
        for key in &keys {
            let slices: [&[u8]; 2] = [&table, key];
            let slot = chosen.iter().filter(|pivot| **pivot <= key).count() as u64;
            let places = if call.takes_place {
                slot..=slot + 1
            } else {
                0..=0
            };
            for place in places {
                let dest = 0;
                group.case(call, &Asked::new(&slices, place, dest));
            }
        }
    }
}

/// Every range over keys of up to two bytes in every table of two such pivots, and a few more.
pub fn ranges(group: &mut Group) {
    for (count, longest) in [(2, 2), (3, 1), (4, 1)] {
        let lefts = small_keys(longest);
        let mut rights: Vec<Record> = lefts.iter().map(|key| record(key)).collect();
        rights.push(field_record(MAX));
        for table in tables(count, longest) {
            for left in &lefts {
                for right in &rights {
                    group.ask(&CONTAINS_RANGE, &[&table, left, right]);
                }
            }
        }
    }
}

/// Every table of two and three pivots with each sort of edge in each slot.
pub fn edges(group: &mut Group) {
    let sorts = [
        field_record(NO_EDGE),
        record(&[]),
        record(&[0x43]),
        record(&[0xFF; 64]),
        field_record(MAX),
        field_record(65),
    ];
    for table in tables(2, 2) {
        for edge in &sorts {
            group.ask(&WF_EDGES, &[&table, edge]);
        }
    }
    for table in tables(3, 2) {
        for first in &sorts {
            for second in &sorts {
                group.ask(&WF_EDGES, &[&table, &[*first, *second].concat()]);
            }
        }
    }
}

pub fn first_table(group: &mut Group) {
    for dest in 0..=300 {
        group.compare(&INIT_PIVOT_TABLE, &[], dest);
    }
}
