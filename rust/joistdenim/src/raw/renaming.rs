//! A range, pivots and edges under another prefix.

extern "C" {
    /// The call [`translate_pivot_pair`](crate::translate_pivot_pair).
    pub fn jd_translate_pivot_pair(
        left: *const u8,
        left_len: usize,
        right: *const u8,
        right_len: usize,
        prefix: *const u8,
        prefix_len: usize,
        new_prefix: *const u8,
        new_prefix_len: usize,
        dest: *mut u8,
        dest_len: usize,
        written: *mut u64,
    ) -> u32;

    /// The call [`translate_pivots`](crate::translate_pivots).
    pub fn jd_translate_pivots(
        pivots: *const u8,
        pivots_len: usize,
        prefix: *const u8,
        prefix_len: usize,
        new_prefix: *const u8,
        new_prefix_len: usize,
        end: *const u8,
        end_len: usize,
        dest: *mut u8,
        dest_len: usize,
        written: *mut u64,
    ) -> u32;

    /// The call [`translate_edges`](crate::translate_edges).
    pub fn jd_translate_edges(
        pivots: *const u8,
        pivots_len: usize,
        edges: *const u8,
        edges_len: usize,
        dest: *mut u8,
        dest_len: usize,
        written: *mut u64,
    ) -> u32;
}
