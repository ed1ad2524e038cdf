//! The printed tables, in Markdown, so that they can stand in a document as they are.
use crate::case::Case;
use crate::timing::{ratio, spread};
use crate::{bucket_calls, index_calls, key_calls, pair_calls, table_calls, wrong_counts};

/// Up to here a ratio is printed as 1.00 or less.
const EVEN: f64 = 1.005;

fn find<'a>(cases: &'a [Case], call: &str, key: usize, size: usize) -> &'a Case {
    let is_it = |case: &&Case| (case.call, case.key, case.size) == (call, key, size);
    cases.iter().find(is_it).expect("a case that was measured")
}

fn to_reference(case: &Case) -> f64 {
    ratio(&case.library, &case.reference)
}

fn to_floor(case: &Case) -> f64 {
    ratio(&case.library, &case.floor)
}

/// Both ratios of the three sizes of a case.
fn both(sizes: [&Case; 3]) -> impl Iterator<Item = f64> {
    let to_reference = sizes.map(to_reference).into_iter();
    to_reference.chain(sizes.map(to_floor))
}

fn row(call: &str, key: usize, numbers: impl IntoIterator<Item = f64>) {
    print!("| {call} | {key} |");
    for number in numbers {
        print!(" {number:.2} |");
    }
    println!();
}

fn header(columns: &[&str]) {
    println!("| {} |", columns.join(" | "));
    println!("|{}", "---|".repeat(columns.len()));
}

fn keys(cases: &[Case]) {
    header(&["call", "key bytes", "lib/ref", "lib/floor"]);
    for call in key_calls::CALLS.into_iter().chain(pair_calls::CALLS) {
        for key in key_calls::KEYS {
            let case = find(cases, call, key, 0);
            row(call, key, [to_reference(case), to_floor(case)]);
        }
    }
}

/// The calls on tables, by their pivots.
fn tables(cases: &[Case], calls: &[&str], pivots: [usize; 3]) {
    growing(cases, calls, &table_calls::KEYS, (pivots, "pivots"));
}

/// Both ratios of each call at three sizes, and how the library's time grows from the first to the
/// last.
fn growing(cases: &[Case], calls: &[&str], keys: &[usize], sizes: ([usize; 3], &str)) {
    let (counts, unit) = sizes;
    let [few, some, many] = counts.map(|count| count.to_string());
    header(&[
        "call",
        "key bytes",
        &format!("lib/ref, {few} {unit}"),
        &some,
        &many,
        &format!("lib/floor, {few} {unit}"),
        &some,
        &many,
        &format!("growth from {few} to {many}"),
    ]);
    for call in calls {
        for &key in keys {
            let sizes = counts.map(|count| find(cases, call, key, count));
            let growth = ratio(&sizes[2].library, &sizes[0].library);
            row(call, key, both(sizes).chain([growth]));
        }
    }
}

fn buckets(cases: &[Case]) {
    header(&[
        "call",
        "key bytes",
        "lib/ref, 512 of 512 kept",
        "256",
        "0",
        "lib/floor, 512 of 512 kept",
        "256",
        "0",
    ]);
    let calls: [(&str, &[usize]); 2] = [
        ("translate_bucket", &bucket_calls::KEYS),
        ("translate_bucket_will_fit", &bucket_calls::ASKED_KEYS),
    ];
    for (call, keys) in calls {
        for &key in keys {
            let sizes = bucket_calls::KEPT.map(|kept| find(cases, call, key, kept));
            row(call, key, both(sizes));
        }
    }
}

/// How much of a call its check of the table takes, where that is a call too.
fn checks(cases: &[Case]) {
    header(&["call", "key bytes", "check/call, 2 pivots", "8", "64"]);
    let pairs = [
        ("route", "wf_pivots"),
        ("translate_key", "wf_edges"),
        ("split_left", "wf_edges"),
        ("split_right", "wf_edges"),
        ("translate", "wf_edges"),
        ("translate_pivots", "wf_pivots"),
        ("translate_edges", "wf_edges"),
        ("list_table", "wf_edges"),
    ];
    for (call, check) in pairs {
        for key in table_calls::KEYS {
            let of = |pivots| {
                let check = find(cases, check, key, pivots);
                ratio(&check.library, &find(cases, call, key, pivots).library)
            };
            row(call, key, table_calls::PIVOTS.map(of));
        }
    }
}

/// How a refusal with 1 grows from few records to many that are not looked at.
fn wrong_counts(refused: &[Case]) {
    let [few, many] = wrong_counts::EDGES;
    header(&[
        "call",
        "key bytes",
        &format!("growth from {few} to {many} edges"),
    ]);
    for call in wrong_counts::CALLS {
        let [few, many] = [few, many].map(|count| find(refused, call, wrong_counts::KEY, count));
        row(
            call,
            wrong_counts::KEY,
            [ratio(&many.library, &few.library)],
        );
    }
}

pub fn print(cases: &[Case], refused: &[Case], rounds: usize) {
    keys(cases);
    println!();
    tables(cases, &table_calls::CALLS, table_calls::PIVOTS);
    println!();
    tables(cases, &["insert_pivot"], table_calls::PIVOTS_BEFORE);
    println!();
    tables(cases, &["join"], table_calls::PIVOTS_JOINED);
    println!();
    checks(cases);
    println!();
    buckets(cases);
    println!();
    let entries = (index_calls::ENTRIES, "entries");
    growing(cases, &index_calls::CALLS, &bucket_calls::KEYS, entries);
    println!();
    wrong_counts(refused);
    println!();
    let slower = cases
        .iter()
        .filter(|case| to_reference(case) > EVEN)
        .count();
    let spreads = cases
        .iter()
        .map(|case| spread(&case.library, &case.reference));
    println!(
        "{rounds} rounds. lib/ref is over 1.00 in {slower} of {} cases; the middle half of its \
         rounds is at most {:.0} % wide.",
        cases.len(),
        100.0 * spreads.fold(0.0, f64::max)
    );
}
