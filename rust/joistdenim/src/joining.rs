//! Two tables put together.
use crate::lend::lend;
use crate::raw;
use crate::refusal::Refusal;

/// Puts two tables together, the first of which ends with the pivot that the second begins with:
/// writes the first's pivots and then the second's behind that one, and the edges of both in turn.
/// A key is translated as by the table whose range it is in. Answers the pivots written; the edges
/// written are one fewer.
/// Refuses 1, 2, 3, 4 (each of either table), 13, 12, 10.
///
/// ```
/// use joistdenim::{get_key, init_pivot_table, join, split_left, split_right};
/// use joistdenim::{Refusal, RECORD_SIZE};
///
/// // The first table, from the empty key to max, without an edge, and what two cuts at 41 leave.
/// let (mut pivots, mut edges) = ([0; 2 * RECORD_SIZE], [0; RECORD_SIZE]);
/// init_pivot_table(&mut pivots)?;
/// edges[..2].copy_from_slice(&[0xFF, 0xFE]);
/// let (mut left, mut left_edges, mut right, mut right_edges) = (pivots, edges, pivots, edges);
/// split_left(&pivots, &edges, &[0x41], &mut left, &mut left_edges)?;
/// split_right(&pivots, &edges, &[0x41], &mut right, &mut right_edges)?;
///
/// // Joined, they are the table with 41 put in.
/// let (mut new, mut new_edges) = ([0; 3 * RECORD_SIZE], [0; 2 * RECORD_SIZE]);
/// let written = join(&left, &left_edges, &right, &right_edges, &mut new, &mut new_edges)?;
/// assert_eq!(written, 3);
/// assert_eq!(get_key(&new, 1)?, [0x41]);
/// assert_eq!(new_edges[..], edges.repeat(2));
///
/// let swapped = join(&right, &right_edges, &left, &left_edges, &mut new, &mut new_edges);
/// assert_eq!(swapped, Err(Refusal::NotMeeting));
/// # Ok::<(), joistdenim::Refusal>(())
/// ```
pub fn join(
    first_pivots: &[u8],
    first_edges: &[u8],
    second_pivots: &[u8],
    second_edges: &[u8],
    dest_pivots: &mut [u8],
    dest_edges: &mut [u8],
) -> Result<usize, Refusal> {
    let written = lend!(
        raw::jd_join, first_pivots, first_edges, second_pivots, second_edges;
        dest_pivots, dest_edges
    )?;
    Ok(written as usize)
}
