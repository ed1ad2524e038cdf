//! The question of parent and child.

extern "C" {
    /// The call [`parent_keys_in_child_range`](crate::parent_keys_in_child_range).
    pub fn jd_parent_keys_in_child_range(
        parent_pivots: *const u8,
        parent_pivots_len: usize,
        parent_edges: *const u8,
        parent_edges_len: usize,
        child_pivots: *const u8,
        child_pivots_len: usize,
        slot: u64,
        yes: *mut u64,
    ) -> u32;
}
