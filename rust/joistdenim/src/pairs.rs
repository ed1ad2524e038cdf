//! Pairs as records of 133 bytes. `Pair` is such a record as a value.
use crate::lend::lend;
use crate::raw;
use crate::refusal::Refusal;

/// Writes the pair with old and new prefix swapped; answers whether it is there.
/// Refuses 1, 2, 10.
pub fn reverse_pair(pair: &[u8], dest_pair: &mut [u8]) -> Result<bool, Refusal> {
    let there = lend!(raw::jd_reverse_pair, pair; dest_pair)?;
    Ok(there == 1)
}

/// Writes the key with the pair's new prefix in place of its old one, or the key itself where the
/// pair is absent; answers its length. Refuses 1, 2, 7, 8, 10.
pub fn apply_pair(pair: &[u8], key: &[u8], dest: &mut [u8]) -> Result<usize, Refusal> {
    let length = lend!(raw::jd_apply_pair, pair, key; dest)?;
    Ok(length as usize)
}

/// Writes the pair that undoes `b` and then does `a`: it takes what `b` makes of a key to what
/// `a` makes of it. Where `a` is absent that is `b` reversed, where `b` is absent `a`. Answers
/// whether it is there. Refuses 1, 2, 7 (neither old prefix begins the other), 8, 10.
pub fn compose_pairs(a: &[u8], b: &[u8], dest_pair: &mut [u8]) -> Result<bool, Refusal> {
    let there = lend!(raw::jd_compose_pairs, a, b; dest_pair)?;
    Ok(there == 1)
}
