//! Each way in which a span of code can name nothing, tried once on a small repository.
use crate::names::check;
use crate::report::Report;
use crate::repository::Repository;

const FILES: [(&str, &str); 12] = [
    ("docs/FORMAT.md", ""),
    ("docs/src/INDEX.md", "`nothing_like_it`\n"),
    ("docs/src/lib/M.dfy", "  // each bucket is non-empty\n  requires e.Element?\n"),
    (
        "crates/model/specs/keys/Order.antt",
        "-- told_here\nuse Rattle.std.specs.Prelude.{get_or}\nabbrev pub is_key : A\npub lte_refl : A\npub lte-is_key : A\nown_law : A\nown_law = longer_name\n",
    ),
    (
        "crates/tables/src/lib.rt",
        "mod ask;\npub use ask::wf_pivots;\npub use pair::Pair;\npub enum Answer {\n    Value(u8),\n}\n",
    ),
    (
        "crates/tables/src/ask.rt",
        "pub fn wf_pivots() {} // spoken_of here\npub fn kept_inside() {}\n",
    ),
    (
        "crates/tables/src/pair.rt",
        "pub struct Pair {\n}\nimpl Pair {\n    pub fn apply(self) {}\n    fn own(self) {}\n}\n",
    ),
    ("crates/tables/must-fail/swapped.edit", "written_there"),
    ("include/joistdenim.h", "/* of_a_note\n */\nuint32_t jd_route(void);\n"),
    ("rust/documents/src/sample.rs", "only_here"),
    ("dafny/cases/Keys.dfy", "  // told_of here\n  method Near(key: Key)\n"),
    ("dafny/recorded.txt", "drawn_there"),
];

fn report(readme: &str, exceptions: &[(&str, &str)]) -> Report {
    let files = [&FILES[..], &[("README.md", readme)]].concat();
    check(&Repository::of(&files), exceptions)
}

fn passes(spans: &[&str]) {
    for span in spans {
        let report = report(&format!("`{span}`\n"), &[]);
        assert_eq!(report.failures, [""; 0]);
        assert_eq!(report.passed, 1);
    }
}

fn fails(span: &str, says: &str) {
    let report = report(&format!("A line.\n\nAnd `{span}`.\n"), &[]);
    assert_eq!(report.failures, [format!("README.md:3: `{span}`: {says}")]);
    assert_eq!(report.passed, 0);
}

#[test]
fn paths() {
    passes(&[
        "docs/FORMAT.md",
        "FORMAT.md",
        "crates/tables/",
        "crates/*/src",
        "keys/Order",
    ]);
    passes(&[
        "target/bin/list_table",
        "is_key = \"crates/tables\"",
        "must-fail",
        "swapped",
    ]);
}

#[test]
fn path_missing() {
    fails("docs/FORMATS.md", "there is no docs/FORMATS.md");
    fails("FORMATS.md", "there is no FORMATS.md");
    fails("keys/Orders", "there is no keys/Orders");
    fails("is_key docs/x.c", "there is no docs/x.c");
}

#[test]
fn names_of_crates() {
    passes(&[
        "tables::wf_pivots",
        "tables::Pair",
        "tables::Pair::apply",
        "Answer::Value(2)",
    ]);
}

#[test]
fn crate_missing() {
    let says = "there is no crate table, nor a public type with wf_pivots";
    fails("table::wf_pivots", says);
}

#[test]
fn name_not_public_in_crate() {
    fails(
        "tables::wf_edges",
        "wf_edges is not public in the crate tables",
    );
    fails(
        "tables::kept_inside",
        "kept_inside is not public in the crate tables",
    );
    fails(
        "tables::Pair::own",
        "Pair::own is not public in the crate tables",
    );
}

#[test]
fn law_not_declared() {
    passes(&["lte_refl", "lte-is_key"]);
    fails("lte-trans", "there is no law lte-trans");
    fails("lte_trans", "lte_trans is no word of the code");
    fails("own_law", "own_law is no word of the code");
    fails("longer_name", "longer_name is no word of the code");
}

#[test]
fn words() {
    passes(&[
        "is_key",
        "is_key(e)",
        "jd_",
        "jd_..",
        "jd_route(k, 2)",
        "Near",
        "get_or",
    ]);
    passes(&["00 02 FF 41×62", "0x4000_0000", "a + b", "→", "--"]);
}

#[test]
fn word_nowhere() {
    fails("is_keys", "is_keys is no word of the code");
    fails("jd_routes", "jd_routes is no word of the code");
    fails("jdx_", "jdx_ is no word of the code");
    fails("is_key nowhere", "nowhere is no word of the code");
    fails("drawn_there", "drawn_there is no word of the code");
}

#[test]
fn word_in_a_comment_alone() {
    fails("told_here", "told_here is no word of the code");
    fails("spoken_of", "spoken_of is no word of the code");
    fails("of_a_note", "of_a_note is no word of the code");
    fails("told_of", "told_of is no word of the code");
}

#[test]
fn word_in_this_crate_alone() {
    fails("only_here", "only_here is no word of the code");
}

#[test]
fn path_and_name() {
    passes(&["crates/tables/src/ask.rt:wf_pivots"]);
    let name = "crates/tables/src/ask.rt:wf_edges";
    let says = "wf_edges is not public in crates/tables/src/ask.rt";
    fails(name, &format!("`{name}`: {says}"));
}

#[test]
fn quotes_of_the_source() {
    passes(&["each bucket is non-empty", "requires e.Element?"]);
    fails("bucket is non-empty", "there is no law non-empty");
}

#[test]
fn exception_used() {
    let report = report(
        "`rt check`\n",
        &[("rt", "the toolchain"), ("check", "its command")],
    );
    assert_eq!((report.passed, report.failures.len()), (1, 0));
}

#[test]
fn exception_not_needed() {
    let report = report(
        "`is_key`\n",
        &[("is_key", "there"), ("dev", "in no document")],
    );
    let wanted = ["is_key", "dev"].map(|n| format!("no document needs the exception `{n}`"));
    assert_eq!(report.failures, wanted);
}

#[test]
fn span_that_does_not_end() {
    let report = report("a `span\nof` two lines\n", &[]);
    let says = "a span of code doesn't end on its line";
    assert_eq!(
        report.failures,
        [1, 2].map(|line| format!("README.md:{line}: {says}"))
    );
}

#[test]
fn fenced_blocks_are_not_looked_at() {
    let report = report("```text\n`nothing_like_it`\n```\n``is_key``\n", &[]);
    assert_eq!((report.passed, report.failures.len()), (1, 0));
}

#[test]
fn pages_on_names_of_before_are_not_looked_at() {
    let page = |path| [&FILES[..], &[(path, "`gone_now`\n")]].concat();
    let failed = |path| check(&Repository::of(&page(path)), &[]).failures.len();
    assert_eq!(failed("docs/PORT.md"), 0);
    assert_eq!(failed("docs/PORT-NAMES.md"), 0);
    assert_eq!(failed("docs/PORTS.md"), 1);
}
