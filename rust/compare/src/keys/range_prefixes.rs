//! Groups for pivot_lcp.
use super::calls::PIVOT_LCP;
use crate::group::Group;
use crate::inputs::{counted, field_record, record, small_keys, MAX};

pub fn all_pairs(group: &mut Group) {
    let keys = small_keys(4);
    let records: Vec<_> = keys.iter().map(|key| record(key)).collect();
    for left in &keys {
        for right in &records {
            group.ask(&PIVOT_LCP, &[left, right]);
        }
    }
}

/// All small keys, and runs of FF with and without a byte after them, up to max.
pub fn up_to_max(group: &mut Group) {
    let max = field_record(MAX);
    for left in small_keys(4) {
        group.ask(&PIVOT_LCP, &[&left, &max]);
    }
    for run in 0..=65 {
        for after in [&[][..], &[0x00], &[0xFE], &[0xFE, 0xFF]] {
            let left = [&vec![0xFF; run][..], after].concat();
            group.ask(&PIVOT_LCP, &[&left, &max]);
        }
    }
}

/// Left is a start, a byte, a run of FF and an end, up to the full length; right is the start and
/// that byte raised by 0, 1 or 2 and by 1 around FF, alone or with another byte.
pub fn runs_of_ff(group: &mut Group) {
    for start in 0..64 {
        for run in 0..64 - start {
            for byte in [0x00, 0x41, 0xFE, 0xFF] {
                let mut left = counted(start);
                left.push(byte);
                left.resize(start + 1 + run, 0xFF);
                for raised in 0..=2 {
                    let mut right = counted(start);
                    right.push(byte.wrapping_add(raised));
                    both_ends(group, &left, &right);
                }
            }
        }
    }
}

fn both_ends(group: &mut Group, left: &[u8], right: &[u8]) {
    let longer = [left, &[0x07]].concat();
    group.ask(&PIVOT_LCP, &[left, &record(right)]);
    group.ask(&PIVOT_LCP, &[&longer, &record(right)]);
    if right.len() < 64 {
        group.ask(&PIVOT_LCP, &[left, &record(&[right, &[0x00]].concat())]);
    }
}

/// Every pair of lengths, equal up to each place in turn, right's byte there one more or less.
pub fn first_differences(group: &mut Group) {
    let long = counted(64);
    for left_len in 0..=64 {
        for right_len in 0..=64 {
            let left = &long[..left_len];
            group.ask(&PIVOT_LCP, &[left, &record(&long[..right_len])]);
            for place in 0..left_len.min(right_len) {
                let mut right = record(&long[..right_len]);
                for byte in [left[place] + 1, left[place] - 1] {
                    right[2 + place] = byte;
                    group.ask(&PIVOT_LCP, &[left, &right]);
                }
            }
        }
    }
}
