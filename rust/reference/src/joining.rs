//! Two tables with edges put together.
use crate::cuts::put;
use crate::refusal::{refuse_if, Refusal};
use crate::table::{edge_records, pivot_records, read_edges, read_pivots, Pivots, MAX_PIVOTS};

/// "Join two tables with edges where the last pivot of the first is the first pivot of the second.
/// The joined table has that pivot once and all edges in turn." Causes 1, 2, 3 and 4 are each
/// looked for in both tables; then 13, 12 and 10. Answers the pivots written.
pub fn join(
    first_pivots: &[u8],
    first_edges: &[u8],
    second_pivots: &[u8],
    second_edges: &[u8],
    dest_pivots: &mut [u8],
    dest_edges: &mut [u8],
) -> Result<usize, Refusal> {
    let first = pivot_records(first_pivots)?;
    let first_edges = edge_records(first_edges, first)?;
    let second = pivot_records(second_pivots)?;
    let second_edges = edge_records(second_edges, second)?;
    let (first, first_edges) = (read_pivots(first)?, read_edges(first_edges)?);
    let (second, second_edges) = (read_pivots(second)?, read_edges(second_edges)?);
    let (first, second) = (Pivots::rising(first)?, Pivots::rising(second)?);
    first.fit(&first_edges)?;
    second.fit(&second_edges)?;
    // The second's first pivot is a key, so that a first table up to max meets none.
    refuse_if(first.last() != second.first(), Refusal::NotMeeting)?;
    let pivots = [first.all(), &second.all()[1..]].concat();
    refuse_if(pivots.len() > MAX_PIVOTS, Refusal::TooManyPivots)?;
    let edges = [first_edges, second_edges].concat();
    put(&pivots, &edges, dest_pivots, dest_edges)
}
