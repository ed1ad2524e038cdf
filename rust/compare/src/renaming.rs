//! Groups for pivots and edges under another prefix.
pub mod calls;
mod laws;
mod random;
mod small;
mod wrapper;

use crate::call::Call;
use crate::group::{test, Test};
use crate::lengths;
use crate::tables::faults;
use calls::{TRANSLATE_EDGES, TRANSLATE_PIVOTS, TRANSLATE_PIVOT_PAIR};

pub fn tests() -> Vec<Test> {
    let mut tests = vec![
        test("translate_pivot_pair: all small ranges", small::ranges),
        test("translate_pivot_pair: all lengths", small::lengths),
        test("translate_pivots: small tables", small::pivots),
        test("translate_edges: small tables", small::edges),
        test("translate_pivots: destinations", small::every_length),
        test("wrapper: renaming", wrapper::renaming),
    ];
    tests.extend(random_tests());
    for call in [&TRANSLATE_PIVOTS, &TRANSLATE_EDGES] {
        tests.extend(tests_of_table(call));
    }
    tests.extend(tests_of(&TRANSLATE_PIVOT_PAIR));
    tests.push(test("translate_edges: each edge of 63", |group| {
        faults::each_edge(group, &TRANSLATE_EDGES)
    }));
    tests
}

fn random_tests() -> Vec<Test> {
    vec![
        test("translate_pivot_pair: near ranges, random", |group| {
            random::ranges(group, 20_000)
        }),
        test("translate_pivots: good tables, random", |group| {
            random::pivots(group, 10_000)
        }),
        test("translate_edges: good tables, random", |group| {
            random::edges(group, 10_000)
        }),
        test("law: keys of a range under its prefix", laws::ranges),
        test("law: pivots renamed and back", |group| {
            laws::and_back(group, 10_000)
        }),
        test("law: edges filled translate alike", |group| {
            laws::filled(group, 5_000)
        }),
    ]
}

fn tests_of(call: &'static Call) -> Vec<Test> {
    let name = |what| format!("{}: {what}", call.name);
    vec![
        test(name("every length"), |group| {
            lengths::every_length(group, call)
        }),
        test(name("random"), |group| {
            crate::random::around_written(group, call, 30_000)
        }),
    ]
}

fn tests_of_table(call: &'static Call) -> Vec<Test> {
    let name = |what| format!("{}: {what}", call.name);
    let mut tests = tests_of(call);
    tests.push(test(name("counts"), |group| faults::counts(group, call)));
    tests.push(test(name("faults"), |group| {
        faults::each_place(group, call)
    }));
    tests
}
