//! Which clauses require something by its name, and each way in which such a row can be wrong, on the sample.
use crate::clauses::required;
use crate::contracts_tests::faults;
use crate::repository::Repository;
use crate::sample::*;

/// The sample with these texts of these files replaced, one in each.
fn with_each(changes: &[(&str, &str, &str)]) -> Repository {
    let texts: Vec<(&str, String)> = changes
        .iter()
        .map(|(path, from, to)| {
            let changed = with(path, from, to);
            (*path, changed.text(path).unwrap().to_string())
        })
        .collect();
    let files: Vec<(&str, &str)> = texts.iter().map(|(p, t)| (*p, t.as_str())).collect();
    also(&files)
}

#[test]
fn what_is_required_by_its_name() {
    for (clause, name) in [
        ("requires WFPivots(pt)", "WFPivots"),
        ("requires WillFitInPkv(mbucket, prefix);", "WillFitInPkv"),
        ("requires MutBucket.InvLseq(blist)", "InvLseq"),
        ("requires left.Inv()", "Inv"),
        (
            "requires right.Element? ==> ElementIsKey(right)",
            "ElementIsKey",
        ),
        (
            "requires forall i | 0 <= i < NumBuckets(pt) :: IsPrefix(p, pt[i].e)",
            "IsPrefix",
        ),
        ("requires Keyspace.lt(Translate(pt[|pt|-2], p), end)", "lt"),
        ("requires Compose.requires(a, b)", "Compose.requires"),
    ] {
        assert_eq!(required(clause), Some(name), "{clause}");
    }
}

#[test]
fn what_is_required_otherwise() {
    for clause in [
        "requires |pt| < Uint64UpperBound()",
        "requires r as int == Route(pt, key)",
        "requires Route(pt, key) == r",
        "requires (a) < (b)(",
        "requires mbucket.format.BFTree?",
        "ensures WFPivots(pt)",
    ] {
        assert_eq!(required(clause), None, "{clause}");
    }
}

const UNSTATED: &str = "docs/CONTRACTS.md:19: no theorem of it mentions `WFPivots`, nor what a remark \"`WFPivots` by `..`\" names";

#[test]
fn theorem_of_another_predicate() {
    let found = faults(&with(THEOREMS, "WFPivots A", "Sorted A"));
    assert_eq!(found, [UNSTATED]);
}

#[test]
fn predicate_in_another_word_or_in_the_proof() {
    let found = faults(&with(THEOREMS, "WFPivots A", "WFPivotsOf A"));
    assert_eq!(found, [UNSTATED]);
    let from = "WFPivots A\n    → Refuses refused 3 B\nbounded_pivots_8 = refl";
    let to = "A\n    → Refuses refused 3 B\nbounded_pivots_8 = WFPivots";
    assert_eq!(faults(&with(THEOREMS, from, to)), [UNSTATED]);
}

#[test]
fn predicate_by_a_definition() {
    let theorem = (THEOREMS, "WFPivots A", "Sorted A");
    let remark = |to| (DOCUMENT, "bounded_pivots_8` | |", to);
    let rendered = "bounded_pivots_8` | 3; `WFPivots` by `Sorted`, of the pivots |";
    assert_eq!(faults(&with_each(&[theorem, remark(rendered)])), [""; 0]);
    let other = "bounded_pivots_8` | `WFPivots` by `Rising` |";
    assert_eq!(faults(&with_each(&[theorem, remark(other)])), [UNSTATED]);
    let unsaid = "bounded_pivots_8` | `Fits` by `Sorted` |";
    assert_eq!(faults(&with_each(&[theorem, remark(unsaid)])), [UNSTATED]);
}

#[test]
fn method_with_another_status() {
    let of_source = (SOURCE, "requires Fits(pt)", "requires WFPivots(k)");
    let from = "| 10 | `requires Fits(pt)` | dropped | | S1 |";
    let theorem = "`crates/contracts/proofs/Tables.antt:bounded_pivots_8`";
    let to = format!("| 10 | `requires WFPivots(k)` | replaced | {theorem} | S1 |");
    let found = faults(&with_each(&[of_source, (DOCUMENT, from, &to)]));
    let wanted = "docs/CONTRACTS.md:21: `WFPivots` has another status at docs/CONTRACTS.md:19";
    assert_eq!(found, [wanted]);
    let same = to.replace("replaced", "refusal 1-3");
    assert_eq!(
        faults(&with_each(&[of_source, (DOCUMENT, from, &same)])),
        [""; 0]
    );
}

#[test]
fn dropped_in_one_place_only() {
    let of_source = (SOURCE, "requires |pt| > 1", "requires Fits(k)");
    let row = (DOCUMENT, r"`requires \|pt\| > 1`", "`requires Fits(k)`");
    let wanted = "docs/CONTRACTS.md:21: `Fits` has another status at docs/CONTRACTS.md:17";
    assert_eq!(faults(&with_each(&[of_source, row])), [wanted]);
}

#[test]
fn total_in_a_function_and_refused_by_a_method() {
    let of_source = (SOURCE, "requires |pt| > 1", "requires WFPivots(k)");
    let row = (DOCUMENT, r"`requires \|pt\| > 1`", "`requires WFPivots(k)`");
    assert_eq!(faults(&with_each(&[of_source, row])), [""; 0]);
}
