//! All small buckets with all small prefixes; wrong records in every place of them; and prefixes
//! and keys of every length.
use super::dests::{around, both};
use super::Slices;
use crate::bucket_inputs::{bucket, bucket_of, wrong_records};
use crate::group::Group;
use crate::inputs::{counted, record, small_keys, Record, ENTRY_SIZE};

/// Keys that begin with small prefixes, end inside them, or just miss them.
const KEYS: [&[u8]; 7] = [
    &[],
    &[0x00],
    &[0x00, 0x00],
    &[0x00, 0x01, 0xFF],
    &[0x01],
    &[0xFF],
    &[0xFF, 0xFF],
];

/// New prefixes: shorter, as long, longer, and such that 64 and 65 bytes are produced.
const NEW: [&[u8]; 5] = [&[], &[0x43], &[0x00, 0xFF, 0x01], &[0x44; 63], &[0x45; 64]];

/// Each bucket of up to three of these records, in any order and with equal ones.
fn each_bucket(records: &[Record], mut body: impl FnMut(&[u8])) {
    for count in 0..=3 {
        for mut way in 0..records.len().pow(count) {
            let mut chosen = vec![];
            for _ in 0..count {
                chosen.push(records[way % records.len()]);
                way /= records.len();
            }
            body(&bucket(&chosen));
        }
    }
}

pub fn buckets(group: &mut Group) {
    each_good(|slices| around(group, slices));
}

pub fn wrong(group: &mut Group) {
    each_wrong(|slices| around(group, slices));
}

/// Each small bucket with every prefix of up to two bytes.
pub fn each_good(mut body: impl FnMut(Slices)) {
    let prefixes = small_keys(2);
    each_bucket(&KEYS.map(record), |bucket| {
        for prefix in &prefixes {
            for new in NEW {
                body([bucket, prefix, new]);
            }
        }
    });
}

/// Each small bucket of good and wrong records, with prefixes that are good and too long: every
/// order of causes over the entries.
pub fn each_wrong(mut body: impl FnMut(Slices)) {
    let good = [record(&[0x41]), record(&[0x41, 0x30])];
    let records = [&good[..], &wrong_records()].concat();
    each_bucket(&records, |bucket| {
        for prefix in [&[][..], &[0x41], &[0x42], &[0x41; 65]] {
            for new in [&[0x43][..], &[0x43; 63], &[0x43; 64], &[0x43; 65]] {
                body([bucket, prefix, new]);
            }
        }
    });
}

/// Destinations of every length, to past one entry more than the bucket has.
pub fn destinations(group: &mut Group) {
    let keys: [&[u8]; 3] = [&[0x42], &[0x41, 0x35], &[0x41, 0x30]];
    for count in 0..=3 {
        let bucket = bucket_of(&keys[..count]);
        for prefix in [&[][..], &[0x41], &[0x44]] {
            for dest in 0..=bucket.len() + ENTRY_SIZE + 1 {
                both(group, [&bucket, prefix, &[0x43]], dest);
            }
        }
    }
}

/// Every length of prefix and new prefix, and keys that end with the prefix, a byte after it, and
/// at the limit.
pub fn lengths(group: &mut Group) {
    let (long, new) = (counted(64), [0xEE; 66]);
    for prefix in 0..=64 {
        for new_len in 0..=66 {
            for len in [prefix, (prefix + 1).min(64), 63.max(prefix), 64] {
                let bucket = bucket_of(&[&long[..len], &long[..prefix]]);
                let slices: [&[u8]; 3] = [&bucket, &long[..prefix], &new[..new_len]];
                both(group, slices, bucket.len());
            }
        }
    }
}

/// A prefix of every length, and keys that end inside it or differ from it at each place in turn:
/// what a test by words could get wrong.
pub fn first_differences(group: &mut Group) {
    let long = counted(64);
    for prefix in 0..=64 {
        for len in prefix..=64 {
            let mut keys: Vec<Vec<u8>> = (0..prefix).map(|len| long[..len].to_vec()).collect();
            for place in 0..len {
                for change in [1, 0x80, 0xFF] {
                    let mut key = long[..len].to_vec();
                    key[place] = key[place].wrapping_add(change);
                    keys.push(key);
                }
            }
            let bucket = bucket_of(&keys);
            both(group, [&bucket, &long[..prefix], &[]], bucket.len());
        }
    }
}
