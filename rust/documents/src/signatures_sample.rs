//! Three functions as the boundary, a header and the Rust declarations have them, all alike, beside what is none of them.
pub const RATTLE: &str = "crates/joistdenim/src/of_keys.rt";
pub const HEADER: &str = "include/joistdenim.h";
pub const RUST: &str = "rust/joistdenim/src/raw.rs";

pub const FILES: [(&str, &str); 4] = [
    (
        RATTLE,
        r#"// The calls on keys.
// #[unsafe(no_mangle)] pub extern "C" fn jd_told_of(a: u8) -> u8
use crate::tell::tell;

#[unsafe(no_mangle)]
pub extern "C" fn jd_compare(a: &[u8], b: &[u8], order: &mut i64) -> u32
    ensures number { result ≡ compared a.now b.now }
{
    tell_order(keys::compare(a, b), order)
}

#[unsafe(no_mangle)]
pub extern "C" fn jd_change_prefix(
    key: &[u8],
    old: &[u8],
    new: &[u8],
    dest: &mut [u8],
    value: &mut u64,
) -> u32 {
    tell(keys::change_prefix(key, old, new, dest), value)
}

#[unsafe(no_mangle)]
pub extern "C" fn jd_get_key(pivots: &[u8], place: u64, value: &mut u64) -> u32 {
    tell(tables::get_key(pivots, place), value)
}

pub fn own(a: bool) -> bool {
    a
}
"#,
    ),
    (
        HEADER,
        r#"/*
 * The calls. extern "C" { uint32_t jd_told_of(uint8_t a); }
 */
#define JD_MAX_LEN 64

static inline const char *jd_refusal_text(uint32_t refusal)
{
    return refusal ? "refused" : "accepted";
}

#ifdef __cplusplus
extern "C" {
#endif

/* The order of two elements; as jd_told_of(); has it. */
uint32_t jd_compare(const uint8_t *a, size_t a_len, const uint8_t *b, size_t b_len,
                    int64_t *order);

uint32_t jd_change_prefix(const uint8_t *key, size_t key_len,
                          const uint8_t *old_prefix, size_t old_prefix_len,
                          const uint8_t *new_prefix, size_t new_prefix_len,
                          uint8_t *dest, size_t dest_len, uint64_t *length);

uint32_t jd_get_key(const uint8_t *pivots, size_t pivots_len, uint64_t place, uint64_t *length);

#ifdef __cplusplus
}
#endif
"#,
    ),
    (
        RUST,
        r#"//! The archive's functions as C sees them.

extern "C" {
    /// The call [`compare`](crate::compare); not `fn jd_told_of();`.
    pub fn jd_compare(
        a: *const u8,
        a_len: usize,
        b: *const u8,
        b_len: usize,
        order: *mut i64,
    ) -> u32;

    pub fn jd_change_prefix(
        key: *const u8,
        key_len: usize,
        old_prefix: *const u8,
        old_prefix_len: usize,
        new_prefix: *const u8,
        new_prefix_len: usize,
        dest: *mut u8,
        dest_len: usize,
        length: *mut u64,
    ) -> u32;

    pub fn jd_get_key(pivots: *const u8, pivots_len: usize, place: u64, length: *mut u64) -> u32;
}
"#,
    ),
    (
        "rust/bench/src/counts.rs",
        "extern \"C\" {\n    fn count(a: *const u8) -> bool;\n}\n",
    ),
];
