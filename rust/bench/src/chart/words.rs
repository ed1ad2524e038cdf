//! The text of docs/PERFORMANCE.md against its tables: the ranges and counts that it tells.
use crate::tables::{cases, Case, Verdict};

const DOCUMENT: &str = include_str!("../../../../docs/PERFORMANCE.md");

/// What stands before a range, and the calls that it is the range of.
const RANGES: [(&str, &[&str]); 9] = [
    ("Checks and routing ", &["wf_pivots", "wf_edges", "route"]),
    ("translations of keys ", &["translate_key", "translate"]),
    (
        "cuts, insertion and joining ",
        &["split_left", "split_right", "insert_pivot", "join"],
    ),
    ("`compare` ", &["compare"]),
    (
        "buckets ",
        &["translate_bucket", "translate_bucket_will_fit"],
    ),
    ("the list ", &["list_table"]),
    (
        "asked for a slot ",
        &["build_index", "check_index", "slot_entries"],
    ),
    ("cut ", &["cut_index_left", "cut_index_right"]),
    ("translated ", &["translate_index"]),
];

fn measured() -> Vec<Case> {
    cases(DOCUMENT).expect("tables that can be read")
}

/// That the words are in the document, with the least and the most of these cases behind them.
fn told<'a>(words: &str, cases: impl Iterator<Item = &'a Case>) {
    let (least, most) = cases.fold((f64::INFINITY, 0.0_f64), |(least, most), case| {
        (least.min(case.least), most.max(case.most))
    });
    let wanted = format!("{words}{least:.2}–{most:.2}");
    assert!(DOCUMENT.contains(&wanted), "the tables have: {wanted}");
}

#[test]
fn ranges_of_calls() {
    let measured = measured();
    for (words, calls) in RANGES {
        let of_calls = |case: &&Case| calls.contains(&case.call.as_str());
        told(words, measured.iter().filter(of_calls));
    }
}

#[test]
fn pairs_applied() {
    let measured = measured();
    let long = |case: &&Case| case.call == "apply_pair" && ["32", "64"].contains(&&*case.key);
    told(
        "since it goes by the record's own parts, it is ",
        measured.iter().filter(long),
    );
}

#[test]
fn counts_of_cases() {
    let measured = measured();
    assert!(DOCUMENT.contains(&format!("in any of {} cases", measured.len())));
    for (name, verdict) in [
        ("Slower", Verdict::Slower),
        ("Neither", Verdict::Neither),
        ("Faster", Verdict::Faster),
    ] {
        let of_verdict = |case: &&Case| case.verdict() == verdict;
        let count = match measured.iter().filter(of_verdict).count() {
            0 => "none".to_string(),
            some => some.to_string(),
        };
        let wanted = format!("**{name}**, {count}");
        assert!(DOCUMENT.contains(&wanted), "the tables have: {wanted}");
    }
}
