//! The translation of a key, and the pair of its slot.
use crate::lend::lend;
use crate::raw;
use crate::refusal::Refusal;

/// Writes the key with its slot's edge in place of the range's prefix, or the key itself where
/// the slot has no edge; answers its length. Refuses 1, 2, 3, 4, 5, 8, 10.
pub fn translate_key(
    pivots: &[u8],
    edges: &[u8],
    key: &[u8],
    dest: &mut [u8],
) -> Result<usize, Refusal> {
    let length = lend!(raw::jd_translate_key, pivots, edges, key; dest)?;
    Ok(length as usize)
}

/// Writes the pair of the key's slot, from the range's prefix to the slot's edge; it is absent
/// where the slot has no edge. Answers whether it is there. Refuses 1, 2, 3, 4, 5, 10.
pub fn translate(
    pivots: &[u8],
    edges: &[u8],
    key: &[u8],
    dest_pair: &mut [u8],
) -> Result<bool, Refusal> {
    let there = lend!(raw::jd_translate, pivots, edges, key; dest_pair)?;
    Ok(there == 1)
}
