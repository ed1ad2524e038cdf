//! Two tables put together.

extern "C" {
    /// The call [`join`](crate::join).
    pub fn jd_join(
        first_pivots: *const u8,
        first_pivots_len: usize,
        first_edges: *const u8,
        first_edges_len: usize,
        second_pivots: *const u8,
        second_pivots_len: usize,
        second_edges: *const u8,
        second_edges_len: usize,
        dest_pivots: *mut u8,
        dest_pivots_len: usize,
        dest_edges: *mut u8,
        dest_edges_len: usize,
        written: *mut u64,
    ) -> u32;
}
