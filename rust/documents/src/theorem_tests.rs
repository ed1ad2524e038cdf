//! Each way in which evidence, marks, theorems and counts can be wrong, tried once on the sample.
use crate::contracts::check;
use crate::contracts_tests::faults;
use crate::sample::*;

/// A change of the document makes this the one fault.
fn document(from: &str, to: &str, wanted: &str) {
    assert_eq!(faults(&with(DOCUMENT, from, to)), [wanted]);
}

fn evidence(from: &str, to: &str, says: &str) {
    let found = faults(&with(DOCUMENT, from, to));
    assert_eq!(found.len(), 1, "{found:#?}");
    assert!(found[0].ends_with(&format!(": {says}")), "{}", found[0]);
}

#[test]
fn evidence_file_missing() {
    let says = "`crates/tables/src/ask.rt:MAX_PIVOTS`: there is no file crates/tables/src/ask.rt";
    evidence("lib.rt:MAX_PIVOTS", "ask.rt:MAX_PIVOTS", says);
}

#[test]
fn evidence_not_public_in_proofs() {
    let says = "`crates/model/specs/Tables.antt:hidden`: hidden is not public in crates/model/specs/Tables.antt";
    evidence("Tables.antt:edge", "Tables.antt:hidden", says);
}

#[test]
fn evidence_not_public_in_code() {
    let says = "`crates/tables/src/lib.rt:SLOTS`: SLOTS is not public in crates/tables/src/lib.rt";
    evidence("lib.rt:MAX_PIVOTS", "lib.rt:SLOTS", says);
}

#[test]
fn method_that_is_not_there() {
    let says = "`crates/tables/src/lib.rt:Table::put_key`: Table::put_key is not public in crates/tables/src/lib.rt";
    evidence("Table::get_key", "Table::put_key", says);
}

#[test]
fn method_of_a_struct_that_is_not_public() {
    let found = faults(&with(CODE, "pub struct", "struct"));
    assert_eq!(found.len(), 1, "{found:#?}");
    assert!(found[0].ends_with("Table::get_key is not public in crates/tables/src/lib.rt"));
}

#[test]
fn word_not_in_another_file() {
    let says = "`include/tables.h:get`: the word get is not in include/tables.h";
    evidence("tables.h:get_key", "tables.h:get", says);
}

#[test]
fn evidence_that_is_no_path_and_name() {
    evidence(
        "`crates/tables/src/lib.rt:MAX_PIVOTS`",
        "`MAX_PIVOTS`",
        "`MAX_PIVOTS` is no `path:name`",
    );
    let says = "the evidence isn't only `path:name`: the limit `include/tables.h:get_key`";
    evidence(
        "`crates/tables/src/lib.rt:MAX_PIVOTS`",
        "the limit `include/tables.h:get_key`",
        says,
    );
}

#[test]
fn mark_not_in_table() {
    let (from, to) = ("| dropped | | S1 |\n| 11", "| dropped | | S2 |\n| 11");
    let wanted = "docs/CONTRACTS.md:21: S2 isn't in `## Sentences of document 01`";
    document(from, to, wanted);
}

#[test]
fn mark_without_sentence() {
    let wanted = "docs/CONTRACTS.md:9: Sentences of document 01: `S1`: a row is S with a number, and a sentence";
    document("| Weights have no twin. |", "| |", wanted);
}

#[test]
fn mark_not_used() {
    let wanted = "docs/CONTRACTS.md:10: Sentences of document 01: no row uses S2";
    document("twin. |\n", "twin. |\n| S2 | A bucket is lent. |\n", wanted);
}

#[test]
fn mark_twice() {
    let wanted = "docs/CONTRACTS.md:10: Sentences of document 01: S1 is there twice";
    document("twin. |\n", "twin. |\n| S1 | A bucket is lent. |\n", wanted);
}

#[test]
fn theorem_not_cited() {
    let more = "-- && IsPrefix(k, pt)\npub bounded_pivots_12a : A\n\nmodule _";
    let says = format!("the row of {SOURCE}:12 doesn't cite it");
    let wanted = format!("{THEOREMS}:16: bounded_pivots_12a: {says}");
    assert_eq!(faults(&with(THEOREMS, "module _", more)), [wanted]);
}

#[test]
fn theorem_cited_by_another_row_alone() {
    let from = "dropped | `crates/tables/src/lib.rt:MAX_PIVOTS` | |";
    let to = "implied | `crates/contracts/proofs/Tables.antt:bounded_pivots_17` | |";
    let text = unchanged().text(DOCUMENT).unwrap().replace(from, to);
    let theorem = "-- type Pkv = seq<Key>\npub bounded_pivots_17 : A\n";
    let found = faults(&also(&[(DOCUMENT, &text), (THEOREMS, theorem)]));
    let says = format!("the row of {SOURCE}:17 doesn't cite it, but docs/CONTRACTS.md:20 does");
    let wanted = format!("{THEOREMS}:2: bounded_pivots_17: {says}");
    assert!(found.contains(&wanted), "{found:#?}");
}

#[test]
fn theorem_of_no_row() {
    let more = "pub bounded_pivots_5 : A\n\nmodule _";
    let says = format!("nothing at {SOURCE}:5 can have a row");
    let wanted = format!("{THEOREMS}:15: bounded_pivots_5: {says}");
    assert_eq!(faults(&with(THEOREMS, "module _", more)), [wanted]);
}

#[test]
fn theorem_under_another_text() {
    let says = "the comment above must begin `requires WFPivots(pt)`, found `requires WFPivots(p)`";
    let wanted = format!("{THEOREMS}:8: bounded_pivots_8: {says}");
    assert_eq!(
        faults(&with(THEOREMS, "WFPivots(pt)", "WFPivots(p)")),
        [wanted]
    );
}

#[test]
fn theorem_apart_from_its_comment() {
    let says = "the comment above must begin `requires WFPivots(pt)`, found ``";
    let wanted = format!("{THEOREMS}:9: bounded_pivots_8: {says}");
    assert_eq!(
        faults(&with(THEOREMS, "WFPivots(pt)\n", "WFPivots(pt)\n\n")),
        [wanted]
    );
}

#[test]
fn theorem_twice() {
    let path = "crates/contracts/proofs/Other.antt";
    let text = "-- requires WFPivots(pt)\npub bounded_pivots_8 : A\n";
    let found = faults(&also(&[(path, text)]));
    let wanted = format!("{path}:2, {THEOREMS}:8: bounded_pivots_8 is there more than once");
    assert!(found.contains(&wanted), "{found:#?}");
}

#[test]
fn refusal_of_another_number() {
    let wanted = "docs/CONTRACTS.md:19: no theorem of it states `RefusesAt .. Shape`";
    document("refusal 1-3", "refusal 1", wanted);
}

#[test]
fn refusal_up_to_another_number() {
    let wanted = "docs/CONTRACTS.md:19: no theorem of it states `Refuses .. 2`";
    document("refusal 1-3", "refusal 1-2", wanted);
}

#[test]
fn refusal_whose_number_isnt_given() {
    let wanted = "docs/CONTRACTS.md:19: no refusal has that number";
    for status in ["refusal 0", "refusal 4", "refusal 0-3", "refusal 1-4"] {
        document("refusal 1-3", status, wanted);
    }
}

#[test]
fn refusal_that_only_the_proof_names() {
    let found = faults(&with(
        THEOREMS,
        "→ Refuses refused 3 B\nbounded_pivots_8 = refl",
        "→ B\nbounded_pivots_8 = Refuses refused 3",
    ));
    let wanted = "docs/CONTRACTS.md:19: no theorem of it states `Refuses .. 3`";
    assert_eq!(found, [wanted]);
}

#[test]
fn count_line_differs() {
    let found = check(&with(DOCUMENT, "Dropped: 2.", "Dropped: 3.")).failures;
    let counts =
        "Clauses: 6. Implied by a theorem: 1. Replaced by a theorem: 1. Refusals: 1. Total definitions: 1.";
    let says = format!("expected `{counts} Dropped: 2.`, found `{counts} Dropped: 3.`");
    assert_eq!(found, [format!("docs/CONTRACTS.md:3: {says}")]);
}

#[test]
fn count_line_missing() {
    let found = check(&with(DOCUMENT, "\nClauses: ", "\nIn all: ")).failures;
    assert_eq!(found.len(), 1, "{found:#?}");
    assert!(found[0].starts_with("docs/CONTRACTS.md: the line `Clauses: 6. Implied"));
    assert!(found[0].ends_with("Dropped: 2.` is missing"));
}

#[test]
fn count_line_twice() {
    let found = check(&with(DOCUMENT, "Nothing.", "Clauses: 0.")).failures;
    assert_eq!(found, ["docs/CONTRACTS.md:35: a second line of counts"]);
}
