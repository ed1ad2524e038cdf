//! The safe wrapper's question of parent and child against the reference.
use crate::group::Group;
use crate::table_inputs::{usual_edges, usual_pivots};
use crate::wrapper::same;

pub fn parent_child(group: &mut Group) {
    for p in &usual_pivots() {
        for e in &usual_edges() {
            for c in &usual_pivots() {
                for slot in [0, 1, 2, 62, 63, u64::MAX] {
                    let got = joistdenim::parent_keys_in_child_range(p, e, c, slot);
                    let wanted = reference::parent_keys_in_child_range(p, e, c, slot);
                    same(group, "parent_keys_in_child_range", &[p, e, c], got, wanted);
                }
            }
        }
    }
}
