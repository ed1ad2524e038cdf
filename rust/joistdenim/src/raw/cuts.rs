//! The cuts of a table, and a new pivot in it.

extern "C" {
    /// The call [`split_left`](crate::split_left).
    pub fn jd_split_left(
        pivots: *const u8,
        pivots_len: usize,
        edges: *const u8,
        edges_len: usize,
        key: *const u8,
        key_len: usize,
        dest_pivots: *mut u8,
        dest_pivots_len: usize,
        dest_edges: *mut u8,
        dest_edges_len: usize,
        written: *mut u64,
    ) -> u32;

    /// The call [`split_right`](crate::split_right).
    pub fn jd_split_right(
        pivots: *const u8,
        pivots_len: usize,
        edges: *const u8,
        edges_len: usize,
        key: *const u8,
        key_len: usize,
        dest_pivots: *mut u8,
        dest_pivots_len: usize,
        dest_edges: *mut u8,
        dest_edges_len: usize,
        written: *mut u64,
    ) -> u32;

    /// The call [`insert_pivot`](crate::insert_pivot).
    pub fn jd_insert_pivot(
        pivots: *const u8,
        pivots_len: usize,
        edges: *const u8,
        edges_len: usize,
        key: *const u8,
        key_len: usize,
        dest_pivots: *mut u8,
        dest_pivots_len: usize,
        dest_edges: *mut u8,
        dest_edges_len: usize,
        written: *mut u64,
    ) -> u32;
}
