//! Each way in which the list of what must be believed can be wrong, tried once on a small repository.
use crate::believed::{check, DOCUMENT};
use crate::believed_sample::{BOUNDARY, CLAIM, CODE, FILES, KEY, KEY_CALLS, LAWS};
use crate::repository::Repository;
use crate::roots::CALLS;
use crate::sample::{fails, replaced};

/// That change is told, by these words and no others.
#[track_caller]
fn told(path: &str, from: &str, to: &str, wanted: &[&str]) {
    all_told(&replaced(&FILES, path, from, to), wanted);
}

#[track_caller]
fn all_told(repository: &Repository, wanted: &[&str]) {
    fails(&check(repository), wanted);
}

/// The sample with a part of the document moved to another place of it.
fn moved(part: &str, before: &str) -> Repository {
    let text = FILES.last().unwrap().1;
    assert_eq!(text.matches(part).count(), 1, "{part}");
    let moved = text
        .replace(part, "")
        .replace(before, &format!("{part}{before}"));
    Repository::of(&[&FILES[..], &[(DOCUMENT, &moved)]].concat())
}

#[test]
fn the_sample_passes() {
    let report = check(&Repository::of(&FILES));
    assert_eq!(report.failures, Vec::<String>::new());
    // Two functions, seven rows, twelve definitions and a claim.
    assert_eq!(report.passed, 2 + 7 + 12 + 1);
}

#[test]
fn a_renamed_definition_is_told() {
    let renamed = FILES.map(|(path, text)| match path {
        DOCUMENT => (path, text.to_string()),
        _ => (path, text.replace("too_long", "too_many")),
    });
    let files = renamed
        .each_ref()
        .map(|(path, text)| (*path, text.as_str()));
    let gone = "docs/BELIEVED.md:8: there is no definition `too_long` in";
    let new = "`too_many` has no row in docs/BELIEVED.md";
    all_told(&Repository::of(&files), &[gone, new]);
}

#[test]
fn what_is_added_to_a_contract_needs_a_row() {
    let call = "keys/Key.antt:17: `spare` has no row in docs/BELIEVED.md, but crates/keys/src/lib.rt:5: key uses it";
    told(CODE, "key_answer k.now", "key_answer spare k.now", &[call]);
    let boundary =
        "`spare` has no row in docs/BELIEVED.md, but crates/joistdenim/src/lib.rt:4: jd_key";
    told(
        BOUNDARY,
        "key_answer k.now",
        "key_answer (spare k.now)",
        &[boundary],
    );
}

#[test]
fn what_is_added_to_a_definition_or_a_claim_needs_a_row() {
    let definition =
        "`spare` has no row in docs/BELIEVED.md, but crates/model/specs/keys/Key.antt:too_long";
    told(KEY, "(length k)", "(length (spare k))", &[definition]);
    let claim = "`Unused` has no row in docs/BELIEVED.md, but crates/model/specs/cuts/TwoOrders.antt:Demand3";
    told(CLAIM, "(k : Pair) →", "(k : Unused) →", &[claim]);
}

#[test]
fn what_is_dropped_loses_its_row() {
    let unused = "docs/BELIEVED.md:8: no contract of a call and no claim uses `limit`";
    told(KEY, "ltb limit", "ltb 64", &[unused]);
    let gone = "docs/BELIEVED.md:8: there is no definition `limit` in";
    told(
        KEY,
        "limit (length k)\n\nlimit : ℕ\n",
        "64 (length k)\n",
        &[gone],
    );
}

#[test]
fn what_only_leaves_or_nothing_uses_has_no_row() {
    let leaf = "no contract of a call and no claim uses `spare`";
    told(DOCUMENT, "`Pair`", "`Pair`, `spare`", &[leaf]);
    let nothing = "no contract of a call and no claim uses `Unused`";
    told(DOCUMENT, "`Answer`", "`Answer`, `Unused`", &[nothing]);
}

#[test]
fn a_row_has_the_file_of_its_names() {
    let no_row = "keys/Key.antt:14: `Pair` has no row";
    let other = "there is no definition `Pair` in crates/model/specs/calls/Refusals.antt";
    let row = "`keys/Key` | `Pair`";
    told(DOCUMENT, row, "`calls/Refusals` | `Pair`", &[other, no_row]);
    let none = "there is no file `keys/Keys`";
    let in_none = "there is no definition `Pair` in keys/Keys";
    told(
        DOCUMENT,
        row,
        "`keys/Keys` | `Pair`",
        &[none, in_none, no_row],
    );
}

#[test]
fn a_row_is_whole() {
    let fault = "docs/BELIEVED.md:9: a row is a file, names, and what they say";
    told(DOCUMENT, "`Pair` | one |", "`Pair` | |", &[fault]);
    told(
        DOCUMENT,
        "`Pair` | one |",
        "`Pair` | one | more |",
        &[fault],
    );
    let twice = "docs/BELIEVED.md:9: `Key` is there twice";
    told(DOCUMENT, "`Pair`", "`Pair`, `Key`", &[twice]);
}

#[test]
fn a_definition_stands_after_those_that_it_uses() {
    let in_file =
        "BELIEVED.md:8: `too_long` stands before `limit` of crates/model/specs/keys/Key.antt, which";
    told(
        DOCUMENT,
        "`limit`, `too_long`",
        "`too_long`, `limit`",
        &[in_file],
    );
    let refusals = "| `calls/Refusals` | `Cause`, `answer` | the first |\n";
    let types = "| `crates/model/src/lib.rt` | `Refusal`, `Answer` | why not, or how much |\n";
    let late = moved(refusals, types);
    let cause = "BELIEVED.md:7: `Cause` stands before `Refusal` of crates/model/src/lib.rt, which";
    all_told(&late, &[cause, "`answer` stands before `Answer`"]);
}

#[test]
fn the_rows_of_a_file_stand_together() {
    let apart = moved("| `keys/Key` | `Pair` | one |\n", "| `calls/KeyCalls`");
    let fault = "docs/BELIEVED.md:10: the rows of this file don't stand together";
    all_told(&apart, &[fault]);
}

#[test]
fn an_inner_definition_is_for_inner_functions() {
    let inner =
        "`place_of` is for inner functions alone, but crates/keys/src/lib.rt:5: key uses it";
    told(
        CODE,
        "key_answer k.now",
        "key_answer place_of k.now",
        &[inner],
    );
}

#[test]
fn each_claim_has_a_row_of_its_own() {
    let own = "TwoOrders.antt:6: two_orders: `Demand3` has no row of its own under `## Claims`";
    let rows = "`TwoOrders` | alike |\n| `cuts/TwoOrders` | `Demand3`";
    told(DOCUMENT, rows, "`TwoOrders`, `Demand3`", &[own]);
    let section = "there is no section `## Claims`";
    let heading = "\n## Claims\n\n| file | claim | what it says |\n|---|---|---|\n";
    told(DOCUMENT, heading, "", &[section, own]);
    let unstated = "no contract of a call and no claim uses `Demand3`";
    let law = "two_orders : Demand3";
    told(LAWS, law, "two_orders : TwoOrders", &[unstated]);
}

#[test]
fn a_call_is_a_public_function_that_cites_a_definition() {
    let none = "docs/CALLS.md:3: keys::keys is no public function of a crate";
    told(CALLS, "`keys::key`", "`keys::keys`", &[none]);
    let call = "crates/keys/src/lib.rt:5: key: its contract cites no definition";
    told(CODE, "key_answer k.now", "k.now", &[call]);
    let boundary = "crates/joistdenim/src/lib.rt:4: jd_key: its contract cites no definition";
    told(BOUNDARY, "key_answer k.now", "k.now", &[boundary]);
}

#[test]
fn what_brings_in_names_is_read() {
    let unread = "keys/Key.antt:2: what is used here isn't understood";
    let used = "use Rattle.std.specs.Prelude.{List}";
    for other in [
        "keys.Order as order",
        "keys.Order.{lte as below}",
        "keys.Order.{",
        "keys.{Order.{lte}}",
    ] {
        let other = format!("use Rattle.model.specs.{other}");
        told(KEY, used, &other, &[unread]);
    }
    let missing = "calls/Refusals.antt: there is no definition `told`, which crates/model/specs/calls/KeyCalls.antt:key_causes uses";
    let files = [("answer}", "answer, told}"), ("∷ []", "∷ told")];
    let text = files
        .iter()
        .fold(FILES[3].1.to_string(), |text, (from, to)| {
            text.replace(from, to)
        });
    let changed = [&FILES[..], &[(KEY_CALLS, &text)]].concat();
    all_told(&Repository::of(&changed), &[missing]);
}

#[test]
fn without_the_document_that_is_told() {
    let others = &FILES[..FILES.len() - 1];
    all_told(&Repository::of(others), &["there is no docs/BELIEVED.md"]);
}
