//! Tables, buckets and indexes of which one or more have faults; and slices of every length.
use super::calls::{BUILD_INDEX, CALLS, CHECK_INDEX};
use super::inputs::{right_index, wrong_indexes, Indexed};
use crate::asked::Asked;
use crate::bucket_inputs::{bucket_of, with_record, wrong_records};
use crate::call::{Call, Kind};
use crate::group::Group;
use crate::inputs::{record, ENTRY_SIZE, MAX_ENTRIES};
use crate::lengths::{choices, every_length_beside};
use crate::table_inputs::{pivots_of_t, rising};
use crate::tables::faults::{each_count, each_fault, pivots_with_faults};

/// Entries of T, and of the rising pivots.
const KEYS: [[u8; 2]; 3] = [[0x41, 0x30], [0x41, 0x32], [0x41, 0x36]];

/// The bucket as it is, and with a fault: of another length, malformed, with equal or falling
/// keys, and with a key below the first pivot or above the last.
fn buckets_with_faults(good: &[u8]) -> Vec<Vec<u8>> {
    let changed = |place, key: &[u8]| with_record(good, place, &record(key));
    let last = good.len() / ENTRY_SIZE - 1;
    let [max, ..] = wrong_records();
    vec![
        good.to_vec(),
        good[..good.len() - 1].to_vec(),
        good.repeat(MAX_ENTRIES / KEYS.len() + 1),
        with_record(good, 0, &max),
        with_record(good, last, &max),
        changed(1, &KEYS[0]),
        changed(last, &KEYS[0]),
        changed(0, &[]),
        changed(last, &[0x7F]),
        changed(0, &[0x7F]),
    ]
}

/// Slices for each argument, good ones and such with a fault, of T or of the rising pivots.
fn slices(call: &Call, pivots: &[u8]) -> Vec<Vec<Vec<u8>>> {
    let bucket = bucket_of(&KEYS);
    let index = right_index(pivots, &bucket);
    let of = |kind: &Kind| match kind {
        Kind::Pivots => pivots_with_faults(pivots),
        Kind::Bucket => buckets_with_faults(&bucket),
        Kind::Index => {
            let wrong = wrong_indexes(&index).into_iter().step_by(5);
            [index.clone()].into_iter().chain(wrong).collect()
        }
        _ => vec![vec![0x41, 0x32], vec![], vec![0x41; 64], vec![0x41; 65]],
    };
    call.arguments.iter().map(|(_, kind)| of(kind)).collect()
}

/// Each fault in each slice beside each in the others.
pub fn some(group: &mut Group, call: &Call) {
    for pivots in [pivots_of_t(), rising(20)] {
        let dests = [[0, 0], [3 * ENTRY_SIZE, 40], [39, 39]];
        choices(group, call, &slices(call, &pivots), &dests);
    }
}

/// Slices of every length from 0 to 140 in each argument, beside three in the others.
pub fn lengths(group: &mut Group, call: &Call) {
    let all = slices(call, &pivots_of_t());
    let three = all.iter().map(|some| {
        let places = [0, some.len() / 2, some.len() - 1];
        places.map(|place| some[place].clone()).to_vec()
    });
    let three: Vec<_> = three.collect();
    every_length_beside(group, call, &three, &[[0, 0], [3 * ENTRY_SIZE, 6]]);
}

/// A bucket of so many entries, which rise from 41 on.
fn full(count: usize) -> Vec<u8> {
    let key = |i: usize| [0x41, (i >> 8) as u8, i as u8];
    bucket_of(&(0..count).map(key).collect::<Vec<_>>())
}

/// Each call on these, with the right index or zeros.
fn each_call(group: &mut Group, x: &Indexed) {
    let all = x.with_prefixes(&[0x41, 0x00, 0x07], &[0x43]);
    for call in CALLS {
        let slices = &all[..call.arguments.len()];
        let dests = [x.bucket.len(), x.pivots.len()];
        group.case(call, &Asked::with_dests(slices, dests));
    }
}

/// From 0 to 66 pivots, and from none to two entries more than there may be: whole, one byte short
/// and one byte more.
pub fn counts(group: &mut Group) {
    let few = full(5);
    each_count(|pivots| each_call(group, &Indexed::of(&pivots, &few)));
    let pivots = rising(5);
    for count in 0..=MAX_ENTRIES + 2 {
        let whole = full(count);
        let more = [&whole[..], &[0]].concat();
        let short = &whole[..whole.len().saturating_sub(1)];
        for bucket in [&whole, &more, short] {
            each_call(group, &Indexed::of(&pivots, bucket));
        }
    }
}

/// Each fault of the pivots at each place, and at each place of a full bucket a wrong record, the
/// key before it, an earlier key, the key of the last pivot and one below the first.
pub fn each_place(group: &mut Group) {
    let few = full(5);
    each_fault(|pivots| each_call(group, &Indexed::of(&pivots, &few)));
    let (pivots, full) = (rising(3), full(MAX_ENTRIES));
    for place in 0..MAX_ENTRIES {
        let before = place.saturating_sub(1);
        let before = full.as_chunks::<ENTRY_SIZE>().0[before];
        let before = before.first_chunk().expect("an entry begins with a record");
        let keys = [&[0x41, 0x00, 0x00][..], &[0x41, 0x06], &[0x40]].map(record);
        for other in wrong_records().iter().chain(&keys).chain([before]) {
            let bucket = with_record(&full, place, other);
            let x = Indexed::of(&pivots, &bucket);
            group.compare(&BUILD_INDEX, &x.slices()[..2], 6);
            group.ask(&CHECK_INDEX, &x.slices());
        }
    }
}

/// Each wrong index of 64 pivots and a full bucket.
pub fn each_wrong_index(group: &mut Group) {
    let key = |i: usize| [0x41, (i * 189 / MAX_ENTRIES) as u8, (i >> 8) as u8, i as u8];
    let keys: Vec<_> = (0..MAX_ENTRIES).map(key).collect();
    let x = Indexed::new(&rising(64), &keys);
    each_call(group, &x);
    for wrong in wrong_indexes(&x.index) {
        each_call(group, &x.with_index(&wrong));
    }
}
