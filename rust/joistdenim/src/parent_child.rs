//! The question of parent and child.
use crate::lend::lend;
use crate::raw;
use crate::refusal::Refusal;

/// Whether the child's range holds the range of the parent's slot: under the slot's edge, or as
/// it is where the slot has none. Refuses 1, 2, 3, 4, 6, 8.
pub fn parent_keys_in_child_range(
    parent_pivots: &[u8],
    parent_edges: &[u8],
    child_pivots: &[u8],
    slot: u64,
) -> Result<bool, Refusal> {
    let (parent, edges, child) = (parent_pivots, parent_edges, child_pivots);
    let yes = lend!(raw::jd_parent_keys_in_child_range, parent, edges, child; ; slot)?;
    Ok(yes == 1)
}
