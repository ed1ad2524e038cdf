//! A range, pivots and edges under another prefix.
use crate::lend::lend;
use crate::raw;
use crate::refusal::Refusal;

/// Writes the range from a left key up to a right element under the new prefix, two records: left
/// with its prefix changed; right with its prefix changed, or the new prefix's upper bound where
/// right is max or lacks the prefix. Answers 2. Refuses 1, 2, 7, 8, 9, 10.
///
/// ```
/// use joistdenim::{pivot_key, translate_pivot_pair, RECORD_SIZE};
///
/// // From 41 30 up to 42, with 43 FF in place of 41.
/// let mut right = [0; RECORD_SIZE];
/// right[..3].copy_from_slice(&[0, 1, 0x42]);
/// let mut dest = [0; 2 * RECORD_SIZE];
/// translate_pivot_pair(&[0x41, 0x30], &right, &[0x41], &[0x43, 0xFF], &mut dest)?;
/// assert_eq!(pivot_key(&dest[..RECORD_SIZE])?, [0x43, 0xFF, 0x30]);
/// assert_eq!(pivot_key(&dest[RECORD_SIZE..])?, [0x44]);
/// # Ok::<(), joistdenim::Refusal>(())
/// ```
pub fn translate_pivot_pair(
    left: &[u8],
    right: &[u8],
    prefix: &[u8],
    new_prefix: &[u8],
    dest: &mut [u8],
) -> Result<usize, Refusal> {
    let written = lend!(raw::jd_translate_pivot_pair, left, right, prefix, new_prefix; dest)?;
    Ok(written as usize)
}

/// Writes each pivot but the last with its prefix changed, and in place of the last the given
/// end, an element above the others. Answers the pivots written.
/// Refuses 1, 2, 3, 7, 8, 9, 10.
pub fn translate_pivots(
    pivots: &[u8],
    prefix: &[u8],
    new_prefix: &[u8],
    end: &[u8],
    dest: &mut [u8],
) -> Result<usize, Refusal> {
    let written = lend!(raw::jd_translate_pivots, pivots, prefix, new_prefix, end; dest)?;
    Ok(written as usize)
}

/// Writes each edge, and where there is none the range's prefix, which may be empty: then
/// `wf_edges` refuses what was written. Answers the edges written. Refuses 1, 2, 3, 4, 10.
pub fn translate_edges(pivots: &[u8], edges: &[u8], dest: &mut [u8]) -> Result<usize, Refusal> {
    let written = lend!(raw::jd_translate_edges, pivots, edges; dest)?;
    Ok(written as usize)
}
