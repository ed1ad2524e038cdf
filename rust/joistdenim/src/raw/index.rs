//! The index beside a bucket.

extern "C" {
    /// The call [`build_index`](crate::build_index).
    pub fn jd_build_index(
        pivots: *const u8,
        pivots_len: usize,
        bucket: *const u8,
        bucket_len: usize,
        dest: *mut u8,
        dest_len: usize,
        total: *mut u64,
    ) -> u32;

    /// The call [`check_index`](crate::check_index).
    pub fn jd_check_index(
        pivots: *const u8,
        pivots_len: usize,
        bucket: *const u8,
        bucket_len: usize,
        index: *const u8,
        index_len: usize,
        total: *mut u64,
    ) -> u32;

    /// The call [`slot_entries`](crate::slot_entries).
    pub fn jd_slot_entries(
        pivots: *const u8,
        pivots_len: usize,
        bucket: *const u8,
        bucket_len: usize,
        index: *const u8,
        index_len: usize,
        slot: u64,
        count: *mut u64,
    ) -> u32;

    /// The call [`cut_index_left`](crate::cut_index_left).
    pub fn jd_cut_index_left(
        pivots: *const u8,
        pivots_len: usize,
        bucket: *const u8,
        bucket_len: usize,
        index: *const u8,
        index_len: usize,
        key: *const u8,
        key_len: usize,
        dest_bucket: *mut u8,
        dest_bucket_len: usize,
        dest_index: *mut u8,
        dest_index_len: usize,
        total: *mut u64,
    ) -> u32;

    /// The call [`cut_index_right`](crate::cut_index_right).
    pub fn jd_cut_index_right(
        pivots: *const u8,
        pivots_len: usize,
        bucket: *const u8,
        bucket_len: usize,
        index: *const u8,
        index_len: usize,
        key: *const u8,
        key_len: usize,
        dest_bucket: *mut u8,
        dest_bucket_len: usize,
        dest_index: *mut u8,
        dest_index_len: usize,
        total: *mut u64,
    ) -> u32;

    /// The call [`translate_index`](crate::translate_index).
    pub fn jd_translate_index(
        pivots: *const u8,
        pivots_len: usize,
        bucket: *const u8,
        bucket_len: usize,
        index: *const u8,
        index_len: usize,
        prefix: *const u8,
        prefix_len: usize,
        new_prefix: *const u8,
        new_prefix_len: usize,
        dest_bucket: *mut u8,
        dest_bucket_len: usize,
        dest_index: *mut u8,
        dest_index_len: usize,
        total: *mut u64,
    ) -> u32;
}
