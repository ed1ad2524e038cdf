//! Groups for compare.
use super::calls::COMPARE;
use crate::group::Group;
use crate::inputs::{counted, field_record, record, small_keys, MAX, NO_EDGE};

pub fn all_pairs(group: &mut Group) {
    let records: Vec<_> = small_keys(4).iter().map(|key| record(key)).collect();
    for a in &records {
        for b in &records {
            group.ask(&COMPARE, &[a, b]);
        }
    }
}

/// Each key, max and both wrong readings beside each mark and a malformed record.
pub fn marks(group: &mut Group) {
    let mut records: Vec<_> = small_keys(4).iter().map(|key| record(key)).collect();
    let others = [MAX, NO_EDGE, 65, 65_533].map(field_record);
    records.extend(others);
    records.push(record(&[0xFF; 64]));
    for a in &records {
        for b in &others {
            group.ask(&COMPARE, &[a, b]);
            group.ask(&COMPARE, &[b, a]);
        }
    }
}

/// Every pair of lengths, equal up to each place in turn: what a scan by words could get wrong.
pub fn first_differences(group: &mut Group) {
    let long = counted(64);
    for a_len in 0..=64 {
        for b_len in 0..=64 {
            group.ask(
                &COMPARE,
                &[&record(&long[..a_len]), &record(&long[..b_len])],
            );
            for place in 0..a_len.min(b_len) {
                let mut other = record(&long[..b_len]);
                for byte in [0, 0xFF] {
                    other[2 + place] = byte;
                    group.ask(&COMPARE, &[&record(&long[..a_len]), &other]);
                }
            }
        }
    }
}
