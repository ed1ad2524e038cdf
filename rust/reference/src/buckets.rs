//! A bucket under another prefix: TranslateBucket, and the question whether it will fit.
use crate::entry::{Entry, EntryBytes, ENTRY_SIZE};
use crate::image::Image;
use crate::record::{short, RECORD_SIZE};
use crate::refusal::{refuse_if, Refusal};

pub const MAX_ENTRIES: usize = 512;

/// Cause 1 of a bucket: whole entries, at most 512 of them.
pub(crate) fn entry_bytes(bucket: &[u8]) -> Result<&[EntryBytes], Refusal> {
    let (entries, rest) = bucket.as_chunks();
    refuse_if(
        !rest.is_empty() || entries.len() > MAX_ENTRIES,
        Refusal::Shape,
    )?;
    Ok(entries)
}

/// Cause 2 of a bucket.
pub(crate) fn read_entries(entries: &[EntryBytes]) -> Result<Vec<Entry<'_>>, Refusal> {
    entries.iter().map(Entry::read).collect()
}

/// An entry that is kept: "key changed, number the same".
pub(crate) struct Kept<'a> {
    key: Image<'a>,
    number: &'a [u8],
}

impl<'a> Kept<'a> {
    /// Nothing of an entry whose key doesn't begin with the prefix: it is passed over, without 7.
    pub(crate) fn of(entry: &Entry<'a>, prefix: &[u8], new_prefix: &'a [u8]) -> Option<Self> {
        let key = Image::of(entry.key, prefix, new_prefix).ok()?;
        let number = entry.number;
        Some(Kept { key, number })
    }

    fn put(&self, dest: &mut EntryBytes) -> Result<(), Refusal> {
        let (record, number) = dest.split_at_mut(RECORD_SIZE);
        number.copy_from_slice(self.number);
        self.key.put_record(record)
    }
}

/// A bucket under another prefix, with keys of any length.
pub(crate) struct Renamed<'a> {
    pub(crate) kept: Vec<Kept<'a>>,
}

impl<'a> Renamed<'a> {
    /// Causes 1 and 2 of every argument. "Entries whose key begins with the prefix are kept in
    /// order".
    fn read(bucket: &'a [u8], prefix: &[u8], new_prefix: &'a [u8]) -> Result<Self, Refusal> {
        let entries = read_entries(entry_bytes(bucket)?)?;
        let (prefix, new_prefix) = (short(prefix)?, short(new_prefix)?);
        let kept = entries
            .iter()
            .filter_map(|entry| Kept::of(entry, prefix, new_prefix))
            .collect();
        Ok(Renamed { kept })
    }

    /// "the destination must hold only the entries kept": the bytes that it needs.
    fn needed(&self) -> usize {
        self.kept.len() * ENTRY_SIZE
    }

    /// Cause 8 of the entries kept, then cause 10 of a destination of this length.
    pub(crate) fn fit(&self, dest_len: u64) -> Result<(), Refusal> {
        self.kept.iter().try_for_each(|entry| entry.key.fit())?;
        refuse_if(dest_len < self.needed() as u64, Refusal::NoRoom)
    }

    /// Writes the entries kept, one after the other, where they fit, and answers "the count kept".
    pub(crate) fn put(&self, dest: &mut [u8]) -> Result<usize, Refusal> {
        for (entry, dest) in self.kept.iter().zip(dest.as_chunks_mut().0) {
            entry.put(dest)?;
        }
        Ok(self.kept.len())
    }
}

/// Writes the entries kept, and answers how many they are.
pub fn translate_bucket(
    bucket: &[u8],
    prefix: &[u8],
    new_prefix: &[u8],
    dest: &mut [u8],
) -> Result<usize, Refusal> {
    let renamed = Renamed::read(bucket, prefix, new_prefix)?;
    renamed.fit(dest.len() as u64)?;
    renamed.put(dest)
}

/// "It refuses 1 and 2, and else says no exactly where the call answers 8 or 10"; the
/// destination's length is a number here.
pub fn translate_bucket_will_fit(
    bucket: &[u8],
    prefix: &[u8],
    new_prefix: &[u8],
    dest_len: u64,
) -> Result<bool, Refusal> {
    let renamed = Renamed::read(bucket, prefix, new_prefix)?;
    Ok(renamed.fit(dest_len).is_ok())
}
