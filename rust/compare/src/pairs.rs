//! Groups for pairs: reversing, applying, composing.
pub mod calls;
mod laws;
mod prefixes;
mod records;
mod small;
mod wrapper;

use crate::call::Call;
use crate::group::{test, Test};
use crate::{lengths, random};

pub fn tests() -> Vec<Test> {
    let mut tests = vec![
        test("reverse_pair: all small pairs", small::reversed),
        test("apply_pair: all small pairs and keys", small::applied),
        test("compose_pairs: all small pairs", small::composed),
        test("apply_pair: all lengths", prefixes::applied),
        test("compose_pairs: all lengths", prefixes::composed),
        test(
            "compose_pairs: first differences",
            prefixes::first_differences,
        ),
        test("law: reversed twice", laws::reversed_twice),
        test("law: the pair of a key, small tables", laws::small_tables),
        test("law: the pair of a key, random", |group| {
            laws::random_tables(group, 10_000)
        }),
        test("law: composing, all small pairs", laws::small_pairs),
        test("law: composing, random", |group| {
            laws::random_pairs(group, 60_000)
        }),
        test("wrapper: pairs", wrapper::records),
        test("wrapper: Pair", wrapper::values),
    ];
    tests.extend(calls::CALLS.into_iter().flat_map(tests_of));
    tests
}

fn tests_of(call: &'static Call) -> Vec<Test> {
    let name = |what| format!("{}: {what}", call.name);
    vec![
        test(name("every flag"), |group| records::flags(group, call)),
        test(name("every length field"), |group| {
            records::length_fields(group, call)
        }),
        test(name("every byte"), |group| records::bytes(group, call)),
        test(name("every length"), |group| {
            lengths::every_length(group, call)
        }),
        test(name("random"), |group| {
            random::around_written(group, call, 100_000)
        }),
        test(name("random destinations"), |group| {
            random::cases(group, call, 60_000)
        }),
    ]
}
