//! Large buckets with one fault: a wrong count, and a wrong record at each place; and every length
//! field in an entry.
use super::dests::{around, both};
use crate::bucket_inputs::{bucket_of, with_record, wrong_records};
use crate::group::Group;
use crate::inputs::{field_record, record, Record, ENTRY_SIZE, MAX_ENTRIES};

/// This many entries, every third with the prefix 42, the others with 41.
fn mixed(count: usize) -> Vec<u8> {
    let key = |i: usize| {
        let [high, low] = (i as u16).to_be_bytes();
        [0x41 + u8::from(i % 3 == 2), low, high]
    };
    bucket_of(&(0..count).map(key).collect::<Vec<_>>())
}

/// From none to two entries more than there may be, whole, one byte short and one byte more.
pub fn counts(group: &mut Group) {
    for count in 0..=MAX_ENTRIES + 2 {
        let whole = mixed(count);
        let more = [&whole[..], &[0]].concat();
        let short = &whole[..whole.len().saturating_sub(1)];
        for bucket in [&whole, &more, short] {
            around(group, [bucket, &[0x41], &[0x43]]);
        }
        both(group, [&whole, &[0x42], &[0x43; 63]], whole.len());
        both(group, [&whole, &[], &[]], whole.len());
    }
}

/// Each wrong record at each place of a full bucket, with 8 of another entry and without.
pub fn each_place(group: &mut Group) {
    let full = mixed(MAX_ENTRIES);
    let long = record(&[0x44; 64]);
    for place in 0..MAX_ENTRIES {
        for wrong in wrong_records() {
            let bucket = with_record(&full, place, &wrong);
            both(group, [&bucket, &[0x41], &[0x43]], full.len());
            both(group, [&bucket, &[0x45], &[0x43; 64]], 0);
        }
        let bucket = with_record(&full, place, &long);
        both(group, [&bucket, &[0x44], &[0x43, 0x43]], full.len());
        both(group, [&bucket, &[0x44], &[0x43]], full.len());
        both(group, [&bucket, &[0x41], &[0x43, 0x43]], full.len());
    }
}

/// Every length field before zeros, and for the lengths of keys and the marks also before each
/// place with a byte that isn't zero; as the second of two entries.
pub fn every_record(group: &mut Group) {
    let two = bucket_of(&[[0x41, 0x30]; 2]);
    let mut ask = |record: &Record| {
        let bucket = with_record(&two, 1, record);
        both(group, [&bucket, &[], &[0x43]], bucket.len());
    };
    for field in 0..=u16::MAX {
        let mut record = field_record(field);
        ask(&record);
        if (66..65_533).contains(&field) {
            continue;
        }
        for place in 2..record.len() {
            record[place] = 1 << (place % 8);
            ask(&record);
            record[place] = 0;
        }
    }
}

/// Each byte of an entry in turn with several values: those of its number are handed on as they
/// are.
pub fn every_byte(group: &mut Group) {
    let two = bucket_of(&[[0x41, 0x30]; 2]);
    for place in 0..ENTRY_SIZE {
        for value in [0x00, 0x01, 0x40, 0x41, 0x80, 0xFF] {
            let mut bucket = two.clone();
            bucket[place] = value;
            both(group, [&bucket, &[0x41], &[0x43]], bucket.len());
            both(group, [&bucket, &[], &[]], bucket.len());
        }
    }
}
