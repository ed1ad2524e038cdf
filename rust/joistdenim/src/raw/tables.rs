//! The calls on tables.

extern "C" {
    /// The call [`wf_pivots`](crate::wf_pivots).
    pub fn jd_wf_pivots(pivots: *const u8, pivots_len: usize) -> u32;

    /// The call [`wf_edges`](crate::wf_edges).
    pub fn jd_wf_edges(
        pivots: *const u8,
        pivots_len: usize,
        edges: *const u8,
        edges_len: usize,
    ) -> u32;

    /// The call [`contains_all_keys`](crate::contains_all_keys).
    pub fn jd_contains_all_keys(pivots: *const u8, pivots_len: usize, yes: *mut u64) -> u32;

    /// The call [`contains_range`](crate::contains_range).
    pub fn jd_contains_range(
        pivots: *const u8,
        pivots_len: usize,
        left: *const u8,
        left_len: usize,
        right: *const u8,
        right_len: usize,
        yes: *mut u64,
    ) -> u32;

    /// The call [`bounded_key`](crate::bounded_key).
    pub fn jd_bounded_key(
        pivots: *const u8,
        pivots_len: usize,
        key: *const u8,
        key_len: usize,
        yes: *mut u64,
    ) -> u32;

    /// The call [`valid_left_cut_off_key`](crate::valid_left_cut_off_key).
    pub fn jd_valid_left_cut_off_key(
        pivots: *const u8,
        pivots_len: usize,
        key: *const u8,
        key_len: usize,
        yes: *mut u64,
    ) -> u32;

    /// The call [`pivot_insertable`](crate::pivot_insertable).
    pub fn jd_pivot_insertable(
        pivots: *const u8,
        pivots_len: usize,
        place: u64,
        key: *const u8,
        key_len: usize,
        yes: *mut u64,
    ) -> u32;

    /// The call [`get_key`](crate::get_key).
    pub fn jd_get_key(pivots: *const u8, pivots_len: usize, place: u64, length: *mut u64) -> u32;

    /// The call [`init_pivot_table`](crate::init_pivot_table).
    pub fn jd_init_pivot_table(dest: *mut u8, dest_len: usize, written: *mut u64) -> u32;

    /// The call [`route`](crate::route).
    pub fn jd_route(
        pivots: *const u8,
        pivots_len: usize,
        key: *const u8,
        key_len: usize,
        slot: *mut u64,
    ) -> u32;

    /// The call [`cutoff_for_left`](crate::cutoff_for_left).
    pub fn jd_cutoff_for_left(
        pivots: *const u8,
        pivots_len: usize,
        key: *const u8,
        key_len: usize,
        slot: *mut u64,
    ) -> u32;

    /// The call [`cutoff_for_right`](crate::cutoff_for_right).
    pub fn jd_cutoff_for_right(
        pivots: *const u8,
        pivots_len: usize,
        key: *const u8,
        key_len: usize,
        slot: *mut u64,
    ) -> u32;
}
