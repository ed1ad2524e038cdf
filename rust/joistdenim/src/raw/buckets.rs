//! Buckets under another prefix.

extern "C" {
    /// The call [`translate_bucket`](crate::translate_bucket).
    pub fn jd_translate_bucket(
        bucket: *const u8,
        bucket_len: usize,
        prefix: *const u8,
        prefix_len: usize,
        new_prefix: *const u8,
        new_prefix_len: usize,
        dest: *mut u8,
        dest_len: usize,
        kept: *mut u64,
    ) -> u32;

    /// The call [`translate_bucket_will_fit`](crate::translate_bucket_will_fit).
    pub fn jd_translate_bucket_will_fit(
        bucket: *const u8,
        bucket_len: usize,
        prefix: *const u8,
        prefix_len: usize,
        new_prefix: *const u8,
        new_prefix_len: usize,
        dest_len: u64,
        yes: *mut u64,
    ) -> u32;
}
