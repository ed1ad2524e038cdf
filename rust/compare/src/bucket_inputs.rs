//! Buckets to make cases of.
use crate::inputs::{
    byte_after, counted, entry, field_record, near, record, Entry, Record, Xorshift, ENTRY_SIZE,
    MAX, MAX_ENTRIES, NO_EDGE,
};

/// An entry whose number tells its place, so that no two of a bucket are alike.
pub fn numbered(place: usize, record: &Record) -> Entry {
    let mut entry = entry(record);
    let [.., high, low] = &mut entry;
    [*high, *low] = (place as u16).to_be_bytes();
    entry
}

pub fn bucket(records: &[Record]) -> Vec<u8> {
    let entries = records.iter().enumerate();
    entries
        .flat_map(|(i, record)| numbered(i, record))
        .collect()
}

/// A bucket of these keys.
pub fn bucket_of(keys: &[impl AsRef<[u8]>]) -> Vec<u8> {
    let records: Vec<Record> = keys.iter().map(|key| record(key.as_ref())).collect();
    bucket(&records)
}

/// The bucket with another record at a place.
pub fn with_record(bucket: &[u8], place: usize, record: &Record) -> Vec<u8> {
    let mut changed = bucket.to_vec();
    changed[place * ENTRY_SIZE..][..record.len()].copy_from_slice(record);
    changed
}

/// Records that may not stand in an entry.
pub fn wrong_records() -> [Record; 5] {
    let [max, no_edge, long, last] = [MAX, NO_EDGE, 65, 65_533].map(field_record);
    [max, no_edge, long, last, byte_after(record(&[0x41]))]
}

/// Good and bad buckets: some refused with 1, some with 2, some taken.
pub fn usual_buckets() -> Vec<Vec<u8>> {
    let two = bucket_of(&[counted(3), vec![0x41, 0x31]]);
    let mut buckets = vec![
        vec![],
        two[1..].to_vec(),
        [&two[..], &[0]].concat(),
        bucket_of(&[counted(1)]),
        bucket_of(&[counted(64), vec![], counted(64)]),
    ];
    let wrong = wrong_records();
    buckets.extend(wrong.map(|record| with_record(&two, 1, &record)));
    buckets.push(with_record(&two, 0, &wrong[0]));
    buckets.push(two);
    buckets
}

/// A few entries with keys near `base`; now and then one fault.
pub fn random_bucket(random: &mut Xorshift, base: &[u8]) -> Vec<u8> {
    let mut keys = vec![];
    for _ in 0..random.below(5) {
        let mut key = near(random, base);
        key.truncate(64);
        keys.push(key);
    }
    let mut bucket = bucket_of(&keys);
    if random.one_in(4) {
        spoil(random, &mut bucket);
    }
    bucket
}

/// One fault: a wrong mark or length, a byte of a record changed, bytes missing or too many, an
/// entry more, or too many entries.
pub fn spoil(random: &mut Xorshift, bucket: &mut Vec<u8>) {
    let count = bucket.len() / ENTRY_SIZE;
    if count == 0 {
        bucket.push(0);
        return;
    }
    let place = random.below(count);
    let wrong = wrong_records();
    match random.below(6) {
        0 | 1 => *bucket = with_record(bucket, place, &wrong[random.below(wrong.len())]),
        2 => bucket[place * ENTRY_SIZE + random.below(66)] = random.next() as u8,
        3 => bucket.truncate(random.below(bucket.len())),
        4 => bucket.extend_from_within(..1 + random.below(ENTRY_SIZE)),
        _ => {
            let one = &bucket[place * ENTRY_SIZE..][..ENTRY_SIZE];
            let more = one.repeat(MAX_ENTRIES + 1 - count.min(MAX_ENTRIES));
            bucket.extend(more);
        }
    }
}
