//! The calls on single keys.
use crate::lend::lend;
use crate::raw;
use crate::record::KEY_AT;
use crate::refusal::Refusal;
use std::cmp::Ordering;

/// The order of two elements. Refuses 1, 2.
pub fn compare(a: &[u8], b: &[u8]) -> Result<Ordering, Refusal> {
    let order: i64 = lend!(raw::jd_compare, a, b;)?;
    Ok(order.cmp(&0))
}

/// The key of a pivot record, a part of it. Refuses 1, 2.
pub fn pivot_key(record: &[u8]) -> Result<&[u8], Refusal> {
    let length = lend!(raw::jd_pivot_key, record;)?;
    Ok(&record[KEY_AT..][..length as usize])
}

/// The key of an entry, a part of it. Refuses 1, 2.
pub fn entry_key(entry: &[u8]) -> Result<&[u8], Refusal> {
    let length = lend!(raw::jd_entry_key, entry;)?;
    Ok(&entry[KEY_AT..][..length as usize])
}

/// Writes the key with the new prefix in place of the old one; answers its length.
/// Refuses 2, 7, 8, 10.
pub fn change_prefix(
    key: &[u8],
    old_prefix: &[u8],
    new_prefix: &[u8],
    dest: &mut [u8],
) -> Result<usize, Refusal> {
    let length = lend!(raw::jd_change_prefix, key, old_prefix, new_prefix; dest)?;
    Ok(length as usize)
}

/// The prefix of the range from a left key up to a right element, as the part of the left key
/// that it is. Refuses 1, 2.
pub fn pivot_lcp<'a>(left: &'a [u8], right: &[u8]) -> Result<&'a [u8], Refusal> {
    let length = lend!(raw::jd_pivot_lcp, left, right;)?;
    Ok(&left[..length as usize])
}

/// Writes the upper bound of a prefix, one record; answers the records written, 1.
/// Refuses 2, 10.
pub fn shortest_uncommon_prefix(prefix: &[u8], dest: &mut [u8]) -> Result<usize, Refusal> {
    let written = lend!(raw::jd_shortest_uncommon_prefix, prefix; dest)?;
    Ok(written as usize)
}
