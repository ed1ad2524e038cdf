//! The question of parent and child: ParentKeysInChildRange.
use crate::record::{Edge, Element};
use crate::refusal::Refusal;
use crate::renaming::Bounds;
use crate::table::{edge_records, pivot_records, read_edges, read_pivots, Pivots};

/// Whether the child's range holds the keys of the parent's slot, translated by the slot's edge.
/// Causes 1, 2 and 3 are looked for in all three tables; then 4 of the parent, 6, and 8 "for a
/// translated bound", also where the answer would be no.
pub fn parent_keys_in_child_range(
    parent_pivots: &[u8],
    parent_edges: &[u8],
    child_pivots: &[u8],
    slot: u64,
) -> Result<bool, Refusal> {
    let parent = pivot_records(parent_pivots)?;
    let edges = edge_records(parent_edges, parent)?;
    let child = pivot_records(child_pivots)?;
    let (parent, edges) = (read_pivots(parent)?, read_edges(edges)?);
    let child = read_pivots(child)?;
    let (parent, child) = (Pivots::rising(parent)?, Pivots::rising(child)?);
    parent.fit(&edges)?;
    let slot = usize::try_from(slot).map_err(|_| Refusal::NoSuchSlot)?;
    let edge = edges.get(slot).ok_or(Refusal::NoSuchSlot)?;
    match *edge {
        Edge::Absent => Ok(child.holds([parent.all()[slot], parent.all()[slot + 1]])),
        Edge::To(new_prefix) => {
            let bounds = translated(&parent, slot, new_prefix)?;
            Ok(child.holds(bounds.elements()))
        }
    }
}

/// The bounds of a slot with this edge: cause 8.
fn translated(parent: &Pivots, slot: usize, edge: &[u8]) -> Result<Bounds, Refusal> {
    let (left, right) = (parent.all()[slot], parent.all()[slot + 1]);
    let Element::Key(left) = left else {
        unreachable!("max is no slot's left pivot")
    };
    Bounds::under(left, right, parent.slot_prefix(slot), edge)
}
