//! The calls on tables. Pivots are 2 to 64 records: keys that rise strictly, the last may be max.
//! Edges are one record fewer: a key or "no edge".
use crate::lend::lend;
use crate::raw;
use crate::record::KEY_AT;
use crate::refusal::Refusal;
use crate::RECORD_SIZE;

/// Whether the pivots are well formed: yes, or the refusal. Refuses 1, 2, 3.
pub fn wf_pivots(pivots: &[u8]) -> Result<(), Refusal> {
    // SAFETY: the slice is good for its length, and nothing is written.
    Refusal::check(unsafe { raw::jd_wf_pivots(pivots.as_ptr(), pivots.len()) })
}

/// Whether pivots and edges are well formed: yes, or the refusal. Refuses 1, 2, 3, 4.
pub fn wf_edges(pivots: &[u8], edges: &[u8]) -> Result<(), Refusal> {
    // SAFETY: both slices are good for their lengths, and nothing is written.
    let number =
        unsafe { raw::jd_wf_edges(pivots.as_ptr(), pivots.len(), edges.as_ptr(), edges.len()) };
    Refusal::check(number)
}

/// Whether the table goes from ε to max. Refuses 1, 2, 3.
pub fn contains_all_keys(pivots: &[u8]) -> Result<bool, Refusal> {
    let yes = lend!(raw::jd_contains_all_keys, pivots;)?;
    Ok(yes == 1)
}

/// Whether the table's range holds all from a left key up to a right element.
/// Refuses 1, 2, 3, 9.
pub fn contains_range(pivots: &[u8], left: &[u8], right: &[u8]) -> Result<bool, Refusal> {
    let yes = lend!(raw::jd_contains_range, pivots, left, right;)?;
    Ok(yes == 1)
}

/// Whether the key is not below the first pivot and below the last. Refuses 1, 2, 3.
pub fn bounded_key(pivots: &[u8], key: &[u8]) -> Result<bool, Refusal> {
    let yes = lend!(raw::jd_bounded_key, pivots, key;)?;
    Ok(yes == 1)
}

/// Whether the key is above the first pivot and not above the last. Refuses 1, 2, 3.
pub fn valid_left_cut_off_key(pivots: &[u8], key: &[u8]) -> Result<bool, Refusal> {
    let yes = lend!(raw::jd_valid_left_cut_off_key, pivots, key;)?;
    Ok(yes == 1)
}

/// Whether the pivots would still rise with the key put in at this place. Refuses 1, 2, 3.
pub fn pivot_insertable(pivots: &[u8], place: u64, key: &[u8]) -> Result<bool, Refusal> {
    let mut yes = 0;
    // SAFETY: both slices are good for their lengths, and nothing but `yes` is written.
    let number = unsafe {
        raw::jd_pivot_insertable(
            pivots.as_ptr(),
            pivots.len(),
            place,
            key.as_ptr(),
            key.len(),
            &mut yes,
        )
    };
    Refusal::check(number)?;
    Ok(yes == 1)
}

/// The key at a place of the table, a part of it. Refuses 1, 2, 3, 6.
pub fn get_key(pivots: &[u8], place: u64) -> Result<&[u8], Refusal> {
    let length = lend!(raw::jd_get_key, pivots; ; place)?;
    Ok(&pivots[place as usize * RECORD_SIZE + KEY_AT..][..length as usize])
}

/// Writes the first table, ε and max; answers the records written, 2. Refuses 10.
pub fn init_pivot_table(dest: &mut [u8]) -> Result<usize, Refusal> {
    let written = lend!(raw::jd_init_pivot_table, ; dest)?;
    Ok(written as usize)
}

/// The slot of the key: the last pivot not above it. Refuses 1, 2, 3, 5.
pub fn route(pivots: &[u8], key: &[u8]) -> Result<usize, Refusal> {
    let slot = lend!(raw::jd_route, pivots, key;)?;
    Ok(slot as usize)
}

/// The slot where a left cut at the key ends: the last pivot below it. Refuses 1, 2, 3, 5.
pub fn cutoff_for_left(pivots: &[u8], key: &[u8]) -> Result<usize, Refusal> {
    let slot = lend!(raw::jd_cutoff_for_left, pivots, key;)?;
    Ok(slot as usize)
}

/// The slot where a right cut at the key begins: the key's. Refuses 1, 2, 3, 5.
pub fn cutoff_for_right(pivots: &[u8], key: &[u8]) -> Result<usize, Refusal> {
    let slot = lend!(raw::jd_cutoff_for_right, pivots, key;)?;
    Ok(slot as usize)
}
