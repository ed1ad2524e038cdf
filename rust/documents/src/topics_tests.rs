//! Each way in which a call can stand under another topic, tried once on two calls.
use crate::repository::Repository;
use crate::sample::{fails, replaced};
use crate::topics::check;

const BOUNDARY: &str = "crates/joistdenim/src/of_keys.rt";
const HEADER: &str = "include/joistdenim.h";
const CALLS: &str = "docs/CALLS.md";
const RAW: &str = "rust/joistdenim/src/raw/keys.rs";
const WRAPPER: &str = "rust/joistdenim/src/parent_child.rs";
const REFERENCE: &str = "rust/reference/src/keys.rs";
const CASES: &str = "vectors/keys/compare.txt";

const FILES: [(&str, &str); 11] = [
    (
        BOUNDARY,
        "#[unsafe(no_mangle)]\npub extern \"C\" fn jd_compare(a: &[u8]) -> u32 {\n    0\n}\n",
    ),
    (
        "crates/joistdenim/src/of_parent_child.rt",
        "#[unsafe(no_mangle)]\npub extern \"C\" fn jd_asked(slot: u64) -> u32 {\n    0\n}\n",
    ),
    (
        HEADER,
        "#ifdef __cplusplus
extern \"C\" {
#endif

/* ---- Keys. */

/* The order. */
uint32_t jd_compare(const uint8_t *a, size_t a_len);

/* ---- Parent and child. The parent's slot. */
uint32_t jd_asked(uint64_t slot);

#ifdef __cplusplus
}
#endif
",
    ),
    (
        CALLS,
        "# Calls

## Refusals

| `number` | cause |

## Keys

| call | arguments |
|---|---|
| `keys::compare` | a key |
| `keys::part` | a key |

## Parent and child

| `parent_child::ask`, in C `jd_asked` | a slot |
",
    ),
    (
        RAW,
        "extern \"C\" {\n    pub fn jd_compare(a: *const u8) -> u32;\n}\n",
    ),
    (
        "rust/joistdenim/src/raw/parent_child.rs",
        "extern \"C\" {\n    pub fn jd_asked(slot: u64) -> u32;\n}\n",
    ),
    (
        "rust/joistdenim/src/keys.rs",
        "pub fn compare(a: &[u8]) {}\n",
    ),
    (WRAPPER, "pub fn asked(slot: u64) {}\n"),
    (REFERENCE, "pub fn compare(a: &[u8]) {}\n"),
    (
        "rust/reference/src/parent_child.rs",
        "pub fn asked(slot: u64) {}\n",
    ),
    (CASES, "jd_compare\n"),
];

#[track_caller]
fn told(path: &str, from: &str, to: &str, wanted: &[&str]) {
    let asked = ("vectors/parent_child.txt", "asked 0\n");
    let files = [&FILES[..], &[asked]].concat();
    fails(&check(&replaced(&files, path, from, to)), wanted);
}

/// Two calls and two headings of a header; the cases aren't there yet.
#[test]
fn the_sample_passes() {
    let report = check(&Repository::of(&FILES[..10]));
    fails(&report, &[]);
    assert_eq!(report.passed, 4);
}

#[test]
fn a_file_of_no_topic() {
    let [own, other] = [FILES[0].1, FILES[1].1];
    let files = [("crates/joistdenim/src/lib.rt", own), (FILES[1].0, other)];
    let report = check(&Repository::of(&[&files[..], &FILES[2..10]].concat()));
    fails(
        &report,
        &["src/lib.rt: compare is exported by no file of a topic"],
    );
}

#[test]
fn another_heading() {
    let other = "jd_compare: it stands under order at include/joistdenim.h:5, and not keys";
    let unknown = "include/joistdenim.h:5: order is no topic of the calls";
    told(HEADER, "Keys.", "Order.", &[other, unknown]);
    let none = "jd_compare: it stands under no heading in include";
    told(HEADER, "/* ---- Keys. */", "/* Keys. */", &[none]);
    let other = "jd_compare: it stands under parent_child at docs/CALLS.md:14, and not keys";
    told(
        CALLS,
        "## Parent and child\n",
        "## Parent and child\n\n| `keys::compare` | two |\n",
        &[other],
    );
    let none = "jd_asked: it stands under no heading in docs/CALLS.md";
    told(CALLS, ", in C `jd_asked`", "", &[none]);
}

#[test]
fn headings_in_another_order() {
    let turned = "include/joistdenim.h:5: parent_child comes before keys";
    let (from, to) = (
        "/* ---- Keys. */\n\n/* The order. */\nuint32_t jd_compare(const uint8_t *a, size_t a_len);\n\n/* ---- Parent and child. The parent's slot. */\nuint32_t jd_asked(uint64_t slot);\n",
        "/* ---- Parent and child. */\nuint32_t jd_asked(uint64_t slot);\n\n/* ---- Keys. */\nuint32_t jd_compare(const uint8_t *a, size_t a_len);\n",
    );
    told(HEADER, from, to, &[turned]);
    let twice = "include/joistdenim.h:5: keys comes before keys";
    told(HEADER, "/* The order. */", "/* ---- Keys. */", &[twice]);
}

#[test]
fn another_file() {
    let raw = "jd_compare: `rust/joistdenim/src/raw/keys.rs:jd_compare`: jd_compare is not public";
    told(RAW, "jd_compare", "jd_ordered", &[raw]);
    let wrapper = "jd_asked: `rust/joistdenim/src/parent_child.rs:asked`: asked is not public";
    told(WRAPPER, "pub fn asked", "fn asked", &[wrapper]);
    let reference = "jd_compare: `rust/reference/src/keys.rs:compare`: compare is not public";
    told(REFERENCE, "compare", "order", &[reference]);
    let cases = "jd_compare: no file of vectors/keys names it";
    told(CASES, "jd_compare", "jd_compared", &[cases]);
}

#[test]
fn where_nothing_is_looked_at_it_fails() {
    fails(&check(&Repository::of(&[])), &["no call was found"]);
}
