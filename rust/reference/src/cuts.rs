//! The cuts of a table with its edges: SplitLeft with SplitLeftEdges, and the right ones; and a key
//! put in as a pivot.
use crate::record::{put_all, Edge, Element, MAX_LEN, RECORD_SIZE};
use crate::refusal::{refuse_if, Refusal};
use crate::table::{Pivots, MAX_PIVOTS};
use crate::tables::table_and_key;

/// What becomes of the edge of a slot that is cut: the old edge, "followed by what the new
/// range's prefix has beyond the old one's". Here it may have any length.
fn cut_edge(old: Edge, old_prefix: &[u8], new_prefix: &[u8]) -> Option<Vec<u8>> {
    match old {
        Edge::To(edge) => Some([edge, &new_prefix[old_prefix.len()..]].concat()),
        Edge::Absent => None,
    }
}

/// An edge that was produced: cause 8.
fn produced(edge: &Option<Vec<u8>>) -> Result<Edge<'_>, Refusal> {
    let Some(edge) = edge else {
        return Ok(Edge::Absent);
    };
    refuse_if(edge.len() > MAX_LEN, Refusal::TooLong)?;
    Ok(Edge::To(edge))
}

/// Writes a table into two destinations; where either is too short, into neither: cause 10.
pub(crate) fn put(
    pivots: &[Element],
    edges: &[Edge],
    dest_pivots: &mut [u8],
    dest_edges: &mut [u8],
) -> Result<usize, Refusal> {
    let short = |dest: &[u8], records: usize| dest.len() < records * RECORD_SIZE;
    refuse_if(
        short(dest_pivots, pivots.len()) || short(dest_edges, edges.len()),
        Refusal::NoRoom,
    )?;
    put_all(edges, Edge::put, dest_edges)?;
    put_all(pivots, Element::put, dest_pivots)
}

/// A left cut "keeps the pivots below k and ends with k". Answers the pivots written.
pub fn split_left(
    pivots: &[u8],
    edges: &[u8],
    key: &[u8],
    dest_pivots: &mut [u8],
    dest_edges: &mut [u8],
) -> Result<usize, Refusal> {
    let (pivots, edges, key) = table_and_key(pivots, edges, key)?;
    let slot = pivots.cutoff_for_left(key)?;
    let cut = Pivots::rising([&pivots.all()[..=slot], &[key]].concat())?;
    let edge = cut_edge(edges[slot], pivots.slot_prefix(slot), cut.slot_prefix(slot));
    let cut_edges = [&edges[..slot], &[produced(&edge)?]].concat();
    put(cut.all(), &cut_edges, dest_pivots, dest_edges)
}

/// A right cut "starts with k and keeps the pivots above k". Answers the pivots written.
pub fn split_right(
    pivots: &[u8],
    edges: &[u8],
    key: &[u8],
    dest_pivots: &mut [u8],
    dest_edges: &mut [u8],
) -> Result<usize, Refusal> {
    let (pivots, edges, key) = table_and_key(pivots, edges, key)?;
    let slot = pivots.route(key)?;
    let cut = Pivots::rising([&[key], &pivots.all()[slot + 1..]].concat())?;
    let edge = cut_edge(edges[slot], pivots.slot_prefix(slot), cut.slot_prefix(0));
    let cut_edges = [&[produced(&edge)?], &edges[slot + 1..]].concat();
    put(cut.all(), &cut_edges, dest_pivots, dest_edges)
}

/// Puts the key in as a new pivot. The halves of its slot have the edges that cuts at the key give
/// them; all others stay. Answers the pivots written.
pub fn insert_pivot(
    pivots: &[u8],
    edges: &[u8],
    key: &[u8],
    dest_pivots: &mut [u8],
    dest_edges: &mut [u8],
) -> Result<usize, Refusal> {
    let (old, edges, key) = table_and_key(pivots, edges, key)?;
    refuse_if(key < old.first() || old.last() < key, Refusal::OutOfRange)?;
    refuse_if(old.all().contains(&key), Refusal::AlreadyPivot)?;
    refuse_if(old.all().len() == MAX_PIVOTS, Refusal::TooManyPivots)?;
    let slot = old.route(key)?;
    let (below, above) = old.all().split_at(slot + 1);
    let new = Pivots::rising([below, &[key], above].concat())?;
    let half = |half| cut_edge(edges[slot], old.slot_prefix(slot), new.slot_prefix(half));
    let (left, right) = (half(slot), half(slot + 1));
    let halves = [produced(&left)?, produced(&right)?];
    let new_edges = [&edges[..slot], &halves, &edges[slot + 1..]].concat();
    put(new.all(), &new_edges, dest_pivots, dest_edges)
}
