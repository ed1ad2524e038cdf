//! Groups for change_prefix.
use super::calls::CHANGE_PREFIX;
use crate::group::Group;
use crate::inputs::{counted, small_keys};

const NEW_LENGTHS: [usize; 8] = [0, 1, 60, 61, 62, 63, 64, 65];

/// One case for each destination that is exactly enough, one short, one more, or empty. Where
/// the call refuses earlier, "enough" is what the lengths alone would give.
fn around_enough(group: &mut Group, key: &[u8], old: &[u8], new: &[u8]) {
    let enough = (new.len() + key.len()).saturating_sub(old.len());
    let slices = [key, old, new];
    for dest in [enough, enough.saturating_sub(1), enough + 1, 0] {
        group.compare(&CHANGE_PREFIX, &slices, dest);
    }
}

pub fn all_pairs(group: &mut Group) {
    let keys = small_keys(4);
    let news = NEW_LENGTHS.map(counted);
    for key in &keys {
        for old in &keys {
            for new in &news {
                around_enough(group, key, old, new);
            }
        }
    }
}

/// Every length of key, old and new prefix around the limit of 64, old beginning the key.
pub fn all_lengths(group: &mut Group) {
    let (long, new) = (counted(66), vec![0xEE; 66]);
    for key_len in 0..=66usize {
        for old_len in 0..=66 {
            for new_len in 0..=66 {
                let produced = (new_len + key_len).saturating_sub(old_len);
                let slices = [&long[..key_len], &long[..old_len], &new[..new_len]];
                group.compare(&CHANGE_PREFIX, &slices, produced);
                group.compare(&CHANGE_PREFIX, &slices, produced.saturating_sub(1));
            }
        }
    }
}

/// An old prefix that differs from the key at each place in turn.
pub fn first_differences(group: &mut Group) {
    let long = counted(64);
    for key_len in 0..=64 {
        for old_len in 0..=64 {
            for place in 0..old_len {
                let mut old = long[..old_len].to_vec();
                old[place] ^= 0x80;
                let slices = [&long[..key_len], &old, &[0x41, 0x42]];
                group.compare(&CHANGE_PREFIX, &slices, 66);
            }
        }
    }
}
