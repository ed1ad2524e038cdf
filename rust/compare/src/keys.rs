//! Groups for the calls on single keys.
pub mod calls;
mod changes;
mod malformed;
mod orders;
mod range_prefixes;
mod upper_bounds;
mod wrapper;

use crate::group::{test, Test};
use crate::{lengths, random};

pub fn tests() -> Vec<Test> {
    [of_one_call(), of_every_call()]
        .into_iter()
        .flatten()
        .collect()
}

fn of_one_call() -> Vec<Test> {
    vec![
        test("compare: all pairs", orders::all_pairs),
        test("compare: marks", orders::marks),
        test("compare: first differences", orders::first_differences),
        test("pivot_lcp: all pairs", range_prefixes::all_pairs),
        test("pivot_lcp: up to max", range_prefixes::up_to_max),
        test("pivot_lcp: runs of FF", range_prefixes::runs_of_ff),
        test(
            "pivot_lcp: first differences",
            range_prefixes::first_differences,
        ),
        test("change_prefix: all pairs", changes::all_pairs),
        test("change_prefix: all lengths", changes::all_lengths),
        test(
            "change_prefix: first differences",
            changes::first_differences,
        ),
        test("shortest_uncommon_prefix: small", upper_bounds::small),
        test("shortest_uncommon_prefix: all FF", upper_bounds::all_ff),
        test(
            "shortest_uncommon_prefix: last other",
            upper_bounds::last_other,
        ),
        test("pivot_key: every record", malformed::pivot_key),
        test("entry_key: every record", malformed::entry_key),
        test("compare: every record", malformed::compare),
        test("pivot_lcp: every record", malformed::pivot_lcp),
        test("wrapper: keys and records", wrapper::keys_and_records),
        test("wrapper: destinations", wrapper::destinations),
    ]
}

fn of_every_call() -> Vec<Test> {
    let mut tests = vec![];
    for call in calls::CALLS {
        let name = format!("{}: every length", call.name);
        tests.push(test(name, |group| lengths::every_length(group, call)));
        let name = format!("{}: random", call.name);
        tests.push(test(name, |group| random::cases(group, call, 200_000)));
    }
    tests
}
