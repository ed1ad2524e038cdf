//! A record's bytes: where its parts are, and its marks.
use crate::RECORD_SIZE;

pub type Record = [u8; RECORD_SIZE];

/// The bytes of a length, high byte first.
pub const LENGTH_SIZE: usize = 2;

/// A record's key begins after its length field.
pub const KEY_AT: usize = LENGTH_SIZE;

/// The length fields that are no length.
pub const NO_EDGE: u16 = 0xFFFE;
pub const MAX: u16 = 0xFFFF;

pub const NO_EDGE_RECORD: Record = marked(NO_EDGE);
pub const MAX_RECORD: Record = marked(MAX);

const fn marked(mark: u16) -> Record {
    let mut record = [0; RECORD_SIZE];
    [record[0], record[1]] = mark.to_be_bytes();
    record
}
