//! Prefixes of all lengths, around the limit of 64, and such as differ at each place in turn.
use super::calls::{APPLY_PAIR, COMPOSE_PAIRS};
use crate::group::Group;
use crate::inputs::counted;
use crate::pair_inputs::{pair, rubbish};

const NEW_LENGTHS: [usize; 6] = [0, 1, 32, 62, 63, 64];

/// Every length of key, old and new prefix, old beginning the key.
pub fn applied(group: &mut Group) {
    let (long, new) = (counted(65), [0xEE; 64]);
    for old_len in 0..=64 {
        for new_len in 0..=64 {
            let pair = rubbish(&pair(&long[..old_len], &new[..new_len]));
            for key_len in 0..=65usize {
                let produced = (new_len + key_len).saturating_sub(old_len);
                let slices: [&[u8]; 2] = [&pair, &long[..key_len]];
                group.compare(&APPLY_PAIR, &slices, produced);
                group.compare(&APPLY_PAIR, &slices, produced.saturating_sub(1));
            }
        }
    }
}

/// Every length of two old prefixes, one beginning the other, with new ones of several lengths.
pub fn composed(group: &mut Group) {
    let (long, a_new, b_new) = (counted(64), [0xEE; 64], [0xFF; 64]);
    for a_old in 0..=64 {
        for b_old in 0..=64 {
            for a_len in NEW_LENGTHS {
                for b_len in NEW_LENGTHS {
                    let a = rubbish(&pair(&long[..a_old], &a_new[..a_len]));
                    let b = rubbish(&pair(&long[..b_old], &b_new[..b_len]));
                    group.compare(&COMPOSE_PAIRS, &[&a, &b], 133);
                }
            }
        }
    }
}

/// Old prefixes of all lengths that differ at one place: refused there, also where a prefix of
/// the result would be too long and the destination is too short.
pub fn first_differences(group: &mut Group) {
    let long = counted(64);
    for a_old in 0..=64 {
        for b_old in 0..=64 {
            for place in 0..b_old {
                let mut other = long[..b_old].to_vec();
                other[place] ^= 0x80;
                let a = pair(&long[..a_old], &long);
                let b = pair(&other, &long[..2]);
                group.compare(&COMPOSE_PAIRS, &[&a, &b], 0);
                group.compare(&COMPOSE_PAIRS, &[&b, &a], 133);
            }
        }
    }
}
