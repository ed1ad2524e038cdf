//! Each way in which two declarations of a function can differ, tried once on a small boundary.
use crate::repository::Repository;
use crate::sample::{fails, replaced};
use crate::signatures::check;
use crate::signatures_sample::{FILES, HEADER, RATTLE, RUST};

/// That change is told, by these words and no others.
#[track_caller]
fn told(path: &str, from: &str, to: &str, wanted: &[&str]) {
    let report = check(&replaced(&FILES, path, from, to));
    fails(&report, wanted);
}

#[test]
fn the_sample_passes() {
    let report = check(&Repository::of(&FILES));
    fails(&report, &[]);
    assert_eq!(report.passed, 3);
}

#[test]
fn a_swapped_pair_of_slices_of_one_type() {
    told(
        RATTLE,
        "    old: &[u8],\n    new: &[u8],\n",
        "    new: &[u8],\n    old: &[u8],\n",
        &[
            "jd_change_prefix: include/joistdenim.h:19: parameter 2 is `old_prefix`, a slice read, and not `new`, a slice read, as at crates/joistdenim/src/of_keys.rt:13",
            "parameter 3 is `new_prefix`, a slice read, and not `old`, a slice read, as at",
        ],
    );
    told(
        HEADER,
        "const uint8_t *a, size_t a_len, const uint8_t *b, size_t b_len,",
        "const uint8_t *b, size_t b_len, const uint8_t *a, size_t a_len,",
        &[
            "joistdenim.h:16: parameter 1 is `b`, a slice read, and not `a`, a slice read, as at crates",
            "joistdenim.h:16: parameter 2 is `a`, a slice read, and not `b`, a slice read, as at crates",
            "raw.rs:5: parameter 1 is `a`, a slice read, and not `b`, a slice read, as at include",
            "raw.rs:5: parameter 2 is `b`, a slice read, and not `a`, a slice read, as at include",
        ],
    );
    told(
        RUST,
        "        a: *const u8,\n        a_len: usize,\n        b: *const u8,\n        b_len: usize,\n",
        "        b: *const u8,\n        b_len: usize,\n        a: *const u8,\n        a_len: usize,\n",
        &["raw.rs:5: parameter 1 is `b`", "raw.rs:5: parameter 2 is `a`"],
    );
}

#[test]
fn a_slice_and_a_number_swapped() {
    told(
        RUST,
        "pivots: *const u8, pivots_len: usize, place: u64,",
        "place: u64, pivots: *const u8, pivots_len: usize,",
        &[
            "parameter 1 is `place`, a number u64, and not `pivots`, a slice read, as at",
            "parameter 2 is `pivots`",
        ],
    );
}

#[test]
fn a_lost_const() {
    let written = "is `pivots`, a slice written, and not `pivots`, a slice read, as at";
    let read = "is `pivots`, a slice read, and not `pivots`, a slice written, as at";
    let (from, to) = ("pivots: *const u8", "pivots: *mut u8");
    told(RUST, from, to, &[written]);
    let (from, to) = ("const uint8_t *pivots", "uint8_t *pivots");
    told(HEADER, from, to, &[written, read]);
    told(RATTLE, "pivots: &[u8]", "pivots: &mut [u8]", &[read]);
}

#[test]
fn another_number() {
    let narrow = "`place`, a number u32, and not `place`, a number u64, as at";
    told(RUST, "place: u64", "place: u32", &[narrow]);
    let wide =
        "raw.rs:25: parameter 2 is `place`, a number u64, and not `place`, a number u32, as at";
    let (from, to) = ("uint64_t place", "uint32_t place");
    told(HEADER, from, to, &[narrow, wide]);
    told(RATTLE, "place: u64", "place: i64", &["a number i64, as at"]);
    let unsigned = "is `order`, an answer i64, and not `order`, an answer u64, as at";
    told(RATTLE, "order: &mut i64", "order: &mut u64", &[unsigned]);
    let pointed = "is `place`, an answer u64, and not `place`, a number u64, as at";
    told(RUST, "place: u64", "place: *mut u64", &[pointed]);
}

#[test]
fn another_result() {
    let (from, to) = (
        "place: u64, value: &mut u64) -> u32",
        "place: u64, value: &mut u64) -> u64",
    );
    told(
        RATTLE,
        from,
        to,
        &["joistdenim.h:24: the result is u32, and not u64, as at"],
    );
    let (from, to) = ("uint32_t jd_get_key", "uint64_t jd_get_key");
    told(
        HEADER,
        from,
        to,
        &["is u64, and not u32, as at", "is u32, and not u64, as at"],
    );
    let (from, to) = ("length: *mut u64) -> u32", "length: *mut u64) -> u16");
    told(
        RUST,
        from,
        to,
        &["raw.rs:25: the result is u16, and not u32, as at include"],
    );
}

#[test]
fn a_parameter_more() {
    let more = "raw.rs:25: the number of parameters is 4, and not 3, as at include/joistdenim.h:24";
    told(RUST, "place: u64,", "place: u64, slot: u64,", &[more]);
    let (from, to) = ("uint64_t place,", "uint64_t place, uint64_t slot,");
    told(
        HEADER,
        from,
        to,
        &["is 4, and not 3, as at", "is 3, and not 4, as at"],
    );
    told(
        RATTLE,
        "place: u64, ",
        "",
        &["is 3, and not 2, as at crates"],
    );
}

#[test]
fn a_missing_function() {
    let exported = "#[unsafe(no_mangle)]\npub extern \"C\" fn jd_get_key";
    let missing = "jd_get_key: crates/joistdenim/src doesn't declare it";
    told(
        RATTLE,
        exported,
        "pub extern \"C\" fn jd_get_key",
        &[missing],
    );
    let missing = [
        "jd_got_key: crates",
        "jd_got_key: rust doesn't",
        "jd_get_key: include doesn't",
    ];
    told(
        HEADER,
        "uint32_t jd_get_key",
        "uint32_t jd_got_key",
        &missing,
    );
    told(
        RUST,
        "    pub fn jd_get_key",
        "}\nmod own {\n    pub fn jd_get_key",
        &["jd_get_key: rust doesn't declare it"],
    );
}

#[test]
fn an_unknown_type() {
    let unknown = "jd_get_key: crates/joistdenim/src/of_keys.rt:24: `place: bool` isn't understood";
    told(RATTLE, "place: u64", "place: bool", &[unknown]);
    let unknown = "include/joistdenim.h:17: `int64_t **order` isn't understood";
    told(HEADER, "int64_t *order", "int64_t **order", &[unknown]);
    let unknown = "rust/joistdenim/src/raw.rs:10: `order: *const i64` isn't understood";
    told(RUST, "order: *mut i64", "order: *const i64", &[unknown]);
    let unknown = "include/joistdenim.h:24: `int` isn't understood";
    told(HEADER, "uint32_t jd_get_key", "int jd_get_key", &[unknown]);
}

#[test]
fn a_slice_without_its_length() {
    let bare = "raw.rs:25: `pivots: *const u8` needs its length behind it, `pivots_len`";
    told(RUST, "pivots_len: usize, ", "", &[bare]);
    told(RUST, "pivots_len: usize", "edges_len: usize", &[bare]);
    told(RUST, "pivots_len: usize", "pivots_len: u64", &[bare]);
    let lonely = "joistdenim.h:24: `size_t pivots_len` has no slice before it";
    told(HEADER, "const uint8_t *pivots, ", "", &[lonely]);
}

#[test]
fn another_name() {
    let other =
        "raw.rs:25: parameter 3 is `count`, an answer u64, and not `length`, an answer u64, as at";
    told(RUST, "place: u64, length:", "place: u64, count:", &[other]);
    let last = "parameter 2 is `place`, a number u64, and not `value`, a number u64, as at";
    told(RATTLE, "place: u64", "value: u64", &[last]);
}

#[test]
fn of_two_answers_the_first_has_its_own_name() {
    let changes = [
        ("place: u64, value", "value: &mut u64, more"),
        (
            "uint64_t place, uint64_t *length",
            "uint64_t *place, uint64_t *more",
        ),
        ("place: u64, length", "place: *mut u64, more"),
    ];
    let texts = [0, 1, 2].map(|i| FILES[i].1.replace(changes[i].0, changes[i].1));
    let files = [0, 1, 2].map(|i| (FILES[i].0, texts[i].as_str()));
    let first =
        "parameter 2 is `place`, an answer u64, and not `value`, an answer u64, as at crates";
    fails(&check(&Repository::of(&files)), &[first]);
}

#[test]
fn a_second_declaration() {
    let second = "extern \"C\" {\n    pub fn jd_get_key(pivots: *const u8, pivots_len: usize, place: u64, length: *mut u64) -> u32;\n}\n";
    let files = [&FILES[..], &[("rust/compare/src/main.rs", second)]].concat();
    let told = "rust/joistdenim/src/raw.rs:25: jd_get_key is declared twice";
    fails(&check(&Repository::of(&files)), &[told]);
}

#[test]
fn a_declaration_of_another_kind() {
    let (from, to) = (
        "    pub fn jd_get_key",
        "    #[link_name = \"jd_got\"]\n    pub fn jd_get_key",
    );
    let unread = "raw.rs:25: this declaration isn't understood";
    told(
        RUST,
        from,
        to,
        &[unread, "jd_get_key: rust doesn't declare it"],
    );
}

#[test]
fn where_nothing_is_looked_at_it_fails() {
    fails(
        &check(&Repository::of(&FILES[3..])),
        &["no function was found"],
    );
}
