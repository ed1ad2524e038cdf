//! Records, tables and buckets for the tests.
use crate::RECORD_SIZE;

fn field(field: u16) -> Vec<u8> {
    let mut record = vec![0; RECORD_SIZE];
    record[..2].copy_from_slice(&field.to_be_bytes());
    record
}

pub fn record(key: &[u8]) -> Vec<u8> {
    let mut record = field(key.len() as u16);
    record[2..2 + key.len()].copy_from_slice(key);
    record
}

pub fn max() -> Vec<u8> {
    field(65_535)
}

pub fn no_edge() -> Vec<u8> {
    field(65_534)
}

pub fn table(keys: &[&[u8]]) -> Vec<u8> {
    keys.iter().flat_map(|key| record(key)).collect()
}

/// Document 01's table T: 41 30, 41 35, 42, with edges 43 and none.
pub fn t() -> (Vec<u8>, Vec<u8>) {
    let pivots = table(&[&[0x41, 0x30], &[0x41, 0x35], &[0x42]]);
    (pivots, [record(&[0x43]), no_edge()].concat())
}

/// A bucket of these keys, numbered from 1.
pub fn bucket(keys: &[&[u8]]) -> Vec<u8> {
    let entry = |(number, key): (u32, &&[u8])| [&record(key)[..], &number.to_be_bytes()].concat();
    (1..).zip(keys).flat_map(entry).collect()
}
