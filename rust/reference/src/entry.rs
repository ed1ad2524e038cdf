//! Entries: "a key record and a four-byte number, high byte first".
use crate::record::{key, RECORD_SIZE};
use crate::refusal::Refusal;

/// "a four-byte number"
const NUMBER_SIZE: usize = 4;
pub const ENTRY_SIZE: usize = RECORD_SIZE + NUMBER_SIZE;

pub(crate) type EntryBytes = [u8; ENTRY_SIZE];

/// An entry that reads well. Its number's bytes are handed on and never looked at.
pub(crate) struct Entry<'a> {
    pub(crate) key: &'a [u8],
    pub(crate) number: &'a [u8],
}

/// A slice that must be one entry: cause 1.
pub(crate) fn one_entry(bytes: &[u8]) -> Result<&EntryBytes, Refusal> {
    bytes.try_into().map_err(|_| Refusal::Shape)
}

impl<'a> Entry<'a> {
    /// Cause 2: only a key may stand in an entry's record.
    pub(crate) fn read(entry: &'a EntryBytes) -> Result<Self, Refusal> {
        let (record, number) = entry.split_first_chunk().ok_or(Refusal::Shape)?;
        let key = key(record)?;
        Ok(Entry { key, number })
    }
}
