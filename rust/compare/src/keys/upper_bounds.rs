//! Groups for shortest_uncommon_prefix.
use super::calls::SHORTEST_UNCOMMON_PREFIX;
use crate::group::Group;
use crate::inputs::small_keys;

fn each_dest(group: &mut Group, prefix: &[u8]) {
    for dest in [0, 65, 66, 67] {
        group.compare(&SHORTEST_UNCOMMON_PREFIX, &[prefix], dest);
    }
}

pub fn small(group: &mut Group) {
    for prefix in small_keys(4) {
        each_dest(group, &prefix);
    }
}

pub fn all_ff(group: &mut Group) {
    for len in 0..=65 {
        each_dest(group, &vec![0xFF; len]);
    }
}

/// Every length, with a byte below FF at each place in turn, FF or 00 after it.
pub fn last_other(group: &mut Group) {
    for len in 1..=65 {
        for place in 0..len {
            for (byte, after) in [(0x00, 0xFF), (0xFE, 0xFF), (0x41, 0xFF), (0xFE, 0x00)] {
                let mut prefix = vec![0xFF; len];
                prefix[place] = byte;
                prefix[place + 1..].fill(after);
                each_dest(group, &prefix);
            }
        }
    }
}
