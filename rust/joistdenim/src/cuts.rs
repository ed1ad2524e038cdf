//! The cuts of a table with its edges, and a new pivot in it.
use crate::lend::lend;
use crate::raw;
use crate::refusal::Refusal;

/// Cuts off what lies from the key on: writes the pivots below the key and the key, and the
/// edges of these slots. The last slot is cut, and its edge goes on with what the range's prefix
/// gains. Answers the pivots written; the edges written are one fewer.
/// Refuses 1, 2, 3, 4, 5, 8, 10.
///
/// ```
/// use joistdenim::{split_left, translate_key, MAX_LEN, RECORD_SIZE};
///
/// fn record(key: &[u8]) -> [u8; RECORD_SIZE] {
///     let mut record = [0; RECORD_SIZE];
///     record[1] = key.len() as u8;
///     record[2..2 + key.len()].copy_from_slice(key);
///     record
/// }
///
/// // One slot, from 41 30 up to 41 35: its keys begin with 41, and the edge replaces this by 43.
/// let pivots = [record(&[0x41, 0x30]), record(&[0x41, 0x35])].concat();
/// let edges = record(&[0x43]);
/// let (mut cut, mut cut_edges) = ([0; 2 * RECORD_SIZE], [0; RECORD_SIZE]);
/// let written = split_left(&pivots, &edges, &[0x41, 0x31], &mut cut, &mut cut_edges)?;
/// assert_eq!(written, 2);
/// assert_eq!(cut[..], [record(&[0x41, 0x30]), record(&[0x41, 0x31])].concat());
/// assert_eq!(cut_edges, record(&[0x43, 0x30]));
///
/// // A key that the cut keeps is translated as before.
/// let mut dest = [0; MAX_LEN];
/// let length = translate_key(&cut, &cut_edges, &[0x41, 0x30, 0x07], &mut dest)?;
/// assert_eq!(dest[..length], [0x43, 0x30, 0x07]);
/// # Ok::<(), joistdenim::Refusal>(())
/// ```
pub fn split_left(
    pivots: &[u8],
    edges: &[u8],
    key: &[u8],
    dest_pivots: &mut [u8],
    dest_edges: &mut [u8],
) -> Result<usize, Refusal> {
    let written = lend!(raw::jd_split_left, pivots, edges, key; dest_pivots, dest_edges)?;
    Ok(written as usize)
}

/// Cuts off what lies below the key: writes the key and the pivots above it, and the edges of
/// these slots. The first slot is cut, and its edge goes on with what the range's prefix gains.
/// Answers the pivots written; the edges written are one fewer.
/// Refuses 1, 2, 3, 4, 5, 8, 10.
pub fn split_right(
    pivots: &[u8],
    edges: &[u8],
    key: &[u8],
    dest_pivots: &mut [u8],
    dest_edges: &mut [u8],
) -> Result<usize, Refusal> {
    let written = lend!(raw::jd_split_right, pivots, edges, key; dest_pivots, dest_edges)?;
    Ok(written as usize)
}

/// Puts the key in as a new pivot: writes the pivots with it in order, and the edges. The two
/// halves of its slot have the edges that cuts at the key give them; all others stay. Answers the
/// pivots written, one more than there were; the edges written are one fewer.
/// Refuses 1, 2, 3, 4, 5, 11 (any of the pivots), 12, 8, 10.
///
/// ```
/// use joistdenim::{get_key, init_pivot_table, insert_pivot, Refusal, RECORD_SIZE};
///
/// // The first table, from the empty key to max; its one slot has no edge.
/// let (mut pivots, mut edges) = ([0; 2 * RECORD_SIZE], [0; RECORD_SIZE]);
/// init_pivot_table(&mut pivots)?;
/// edges[..2].copy_from_slice(&[0xFF, 0xFE]);
///
/// let (mut new, mut new_edges) = ([0; 3 * RECORD_SIZE], [0; 2 * RECORD_SIZE]);
/// let written = insert_pivot(&pivots, &edges, &[0x41], &mut new, &mut new_edges)?;
/// assert_eq!(written, 3);
/// assert_eq!(get_key(&new, 1)?, [0x41]);
/// assert_eq!(new_edges[..], edges.repeat(2));
///
/// let again = insert_pivot(&new, &new_edges, &[0x41], &mut [], &mut []);
/// assert_eq!(again, Err(Refusal::AlreadyPivot));
/// # Ok::<(), joistdenim::Refusal>(())
/// ```
pub fn insert_pivot(
    pivots: &[u8],
    edges: &[u8],
    key: &[u8],
    dest_pivots: &mut [u8],
    dest_edges: &mut [u8],
) -> Result<usize, Refusal> {
    let written = lend!(raw::jd_insert_pivot, pivots, edges, key; dest_pivots, dest_edges)?;
    Ok(written as usize)
}
