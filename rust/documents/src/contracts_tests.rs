//! Each way in which a row can be wrong, or missing, tried once on the sample.
use crate::contracts::check;
use crate::repository::Repository;
use crate::sample::*;

const THEOREM_NEEDED: &str =
    "`implied`, `replaced` and `refusal` need a theorem of crates/contracts/proofs";

/// What is wrong, but for the line of counts, which many changes make wrong too.
pub fn faults(repository: &Repository) -> Vec<String> {
    let mut failures = check(repository).failures;
    failures.retain(|failure| !failure.contains("`Clauses: "));
    failures
}

/// A change of the row of this line makes this the one fault.
fn row(line: usize, from: &str, to: &str, says: &str) {
    let at = [
        (2, 15),
        (3, 16),
        (4, 17),
        (7, 18),
        (8, 19),
        (9, 20),
        (10, 21),
    ];
    let later = [(11, 22), (12, 23), (13, 24), (17, 25)];
    let place = at.iter().chain(&later).find(|(l, _)| *l == line).unwrap().1;
    let wanted = format!("docs/CONTRACTS.md:{place}: BoundedPivotsLib.i.dfy {line}: {says}");
    assert_eq!(faults(&with(DOCUMENT, from, to)), [wanted]);
}

fn missing(line: usize, row: &str, text: &str) {
    let wanted = format!("{SOURCE}:{line}: no row in docs/CONTRACTS.md for `{text}`");
    assert_eq!(faults(&with(DOCUMENT, row, "")), [wanted]);
}

#[test]
fn all_is_right() {
    let report = check(&unchanged());
    assert_eq!(report.failures, [""; 0]);
    // 12 rows, 4 theorems, 1 mark and the line of counts
    assert_eq!(report.passed, 18);
}

#[test]
fn declaration_without_row() {
    let row = "| 3 | `predicate WFPivots(pt: PivotTable)` | defined | `crates/model/specs/Tables.antt:WFPivots` | |\n";
    missing(3, row, "predicate WFPivots(pt: PivotTable)");
}

#[test]
fn clause_without_row() {
    let row =
        r"| 4 | `requires \|pt\| > 1` | total | `crates/model/specs/Tables.antt:WFPivots` | |";
    missing(4, &format!("{row}\n"), "requires |pt| > 1");
}

#[test]
fn head_without_row() {
    let row = "| 11 | `ensures k.Some? ==> (` | parts | | |\n";
    missing(11, row, "ensures k.Some? ==> (");
}

#[test]
fn part_without_row() {
    let (from, to) = (
        "    && Last(pt) == k",
        "    && k == k\n    && Last(pt) == k",
    );
    let found = faults(&with(SOURCE, from, to));
    let wanted = format!("{SOURCE}:14: no row in docs/CONTRACTS.md for `&& Last(pt) == k )`");
    assert!(found.contains(&wanted), "{found:#?}");
}

#[test]
fn two_rows() {
    let text = "| 11 | `ensures k.Some? ==> (` | parts | | |\n";
    let wanted = "docs/CONTRACTS.md:23: BoundedPivotsLib.i.dfy 11: line 22 is a row of it already";
    assert_eq!(faults(&with(DOCUMENT, text, &text.repeat(2))), [wanted]);
}

#[test]
fn row_of_no_line() {
    let text = "| 11 | `ensures k.Some? ==> (` | parts | | |\n";
    let other = text.replace("11", "5");
    let says = format!("nothing at {SOURCE}:5 can have a row");
    let wanted = format!("docs/CONTRACTS.md:23: BoundedPivotsLib.i.dfy 5: {says}");
    assert_eq!(
        faults(&with(DOCUMENT, text, &(text.to_string() + &other))),
        [wanted]
    );
}

#[test]
fn text_differs() {
    let says = "the text is `requires Fits(pt)`, found `requires Fits(p)`";
    row(10, "`requires Fits(pt)`", "`requires Fits(p)`", says);
}

#[test]
fn section_missing() {
    let found = faults(&with(
        DOCUMENT,
        "## TranslationLib.i.dfy",
        "## TranslationLib",
    ));
    assert_eq!(
        found[0],
        "docs/CONTRACTS.md: there is no section `## TranslationLib.i.dfy`"
    );
}

#[test]
fn row_that_cannot_be_read() {
    let unread = |from, to| faults(&with(DOCUMENT, from, to))[0].clone();
    let short = unread(
        "| 11 | `ensures k.Some? ==> (` | parts | | |",
        "| 11 | parts |",
    );
    assert_eq!(short, "docs/CONTRACTS.md:22: 2 cells, not 5");
    let line = unread("| 11 |", "| eleven |");
    assert_eq!(line, "docs/CONTRACTS.md:22: `eleven` is no line");
    let clause = unread("`ensures k.Some? ==> (`", "ensures k.Some?");
    assert_eq!(
        clause,
        "docs/CONTRACTS.md:22: the clause isn't one span of code: ensures k.Some?"
    );
}

#[test]
fn declaration_status() {
    let says = "a declaration has the status `defined`, `replaced` or `dropped`";
    row(17, "Key>` | dropped", "Key>` | refusal 3", says);
}

#[test]
fn head_status() {
    let says = "the head of a clause has the status `parts`";
    row(11, "| parts | | |", "| dropped | | S1 |", says);
}

#[test]
fn head_with_evidence() {
    let evidence = "| parts | `include/tables.h:get_key` | |";
    row(11, "| parts | | |", evidence, "`parts` has no evidence");
}

#[test]
fn clause_status() {
    row(
        10,
        "| dropped | | S1 |\n| 11",
        "| drop | | S1 |\n| 11",
        "there is no status `drop`",
    );
    let says = "`parts` is for the head of a clause";
    row(
        10,
        "| dropped | | S1 |\n| 11",
        "| parts | | S1 |\n| 11",
        says,
    );
    row(
        9,
        "9` | dropped",
        "9` | defined",
        "`defined` is for a declaration",
    );
}

#[test]
fn refusal_without_a_number_or_a_range() {
    for status in ["refusal x", "refusal 3-3", "refusal 3-1", "refusal"] {
        row(
            8,
            "refusal 1-3",
            status,
            &format!("there is no status `{status}`"),
        );
    }
}

#[test]
fn defined_without_evidence() {
    let from = "defined | `crates/model/specs/Tables.antt:WFPivots` |";
    row(3, from, "defined | |", "`defined` needs an evidence");
}

#[test]
fn implied_without_theorem() {
    row(9, "9` | dropped", "9` | implied", THEOREM_NEEDED);
}

#[test]
fn replaced_without_theorem() {
    let from = "dropped | `crates/tables/src/lib.rt:MAX_PIVOTS` | |";
    let to = "replaced | `crates/tables/src/lib.rt:MAX_PIVOTS` | the limit |";
    row(9, from, to, THEOREM_NEEDED);
}

#[test]
fn refusal_without_theorem() {
    row(9, "9` | dropped", "9` | refusal 1", THEOREM_NEEDED);
}

#[test]
fn a_law_that_is_no_theorem() {
    let from = "dropped | `crates/tables/src/lib.rt:MAX_PIVOTS` |";
    let to = "implied | `crates/contracts/proofs/Tables.antt:shared_law` |";
    row(9, from, to, THEOREM_NEEDED);
}

#[test]
fn replaced_without_remark() {
    row(13, "at 64 bytes", "", "`replaced` needs a remark");
    row(7, "by place", "", "`replaced` needs a remark");
}

#[test]
fn total_on_ensures() {
    row(
        12,
        "pt)` | implied",
        "pt)` | total",
        "`total` is for `requires`",
    );
}

#[test]
fn total_without_evidence() {
    let from = "total | `crates/model/specs/Tables.antt:WFPivots`";
    row(4, from, "total |", "`total` needs an evidence");
}

#[test]
fn dropped_without_replacement() {
    let says = "`dropped` needs an evidence, or the mark of a sentence in the remark";
    row(
        10,
        "| dropped | | S1 |\n| 11",
        "| dropped | | see S |\n| 11",
        says,
    );
}
