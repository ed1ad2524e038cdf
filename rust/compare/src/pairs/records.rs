//! Every flag, every length field and every byte of a pair's record, in each pair of a call.
use crate::asked::Asked;
use crate::call::{Call, Kind};
use crate::group::Group;
use crate::pair_inputs::{pair, rubbish, with_flag, with_length, PairRecord, ABSENT, PAIR_SIZE};

/// The record as each of the call's pairs in turn, beside a good one or a key.
fn each_argument(group: &mut Group, call: &Call, record: &[u8]) {
    let (good, key) = (pair(&[0x41], &[0x43]), [0x41; 8]);
    for (argument, (_, kind)) in call.arguments.iter().enumerate() {
        let Kind::Pair = kind else { continue };
        let usual = |(_, kind): &(_, Kind)| match kind {
            Kind::Pair => &good[..],
            _ => &key,
        };
        let mut slices: Vec<&[u8]> = call.arguments.iter().map(usual).collect();
        slices[argument] = record;
        group.case(call, &Asked::with_dests(&slices, [PAIR_SIZE, 0]));
    }
}

/// Pairs that are there, short and long, and the absent pair.
fn some_pairs() -> Vec<PairRecord> {
    let there = pair(&[0x41, 0x41, 0x41], &[0x43; 5]);
    let long = pair(&[0x41; 64], &[0x44; 64]);
    vec![there, rubbish(&there), long, rubbish(&ABSENT)]
}

pub fn flags(group: &mut Group, call: &Call) {
    for record in some_pairs() {
        for flag in 0..=255 {
            each_argument(group, call, &with_flag(&record, flag));
        }
    }
}

/// Of each prefix: in a pair that is there, where 0 to 64 are taken, and in an absent one.
pub fn length_fields(group: &mut Group, call: &Call) {
    let there = pair(&[0x41; 64], &[0x44; 64]);
    for record in [there, ABSENT] {
        for at in [1, 3] {
            for length in 0..=u16::MAX {
                each_argument(group, call, &with_length(&record, at, length));
            }
        }
    }
}

/// Each byte of the record in turn, with every value.
pub fn bytes(group: &mut Group, call: &Call) {
    for record in some_pairs() {
        let mut changed = record.to_vec();
        for place in 0..changed.len() {
            for byte in 0..=255 {
                changed[place] = byte;
                each_argument(group, call, &changed);
            }
            changed[place] = record[place];
        }
    }
}
