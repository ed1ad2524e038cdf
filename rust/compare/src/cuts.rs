//! Groups for the cuts and for a new pivot.
pub mod calls;
pub mod inputs;
mod insertion;
pub mod random;
pub mod records;
pub mod small;
mod two_orders;
mod wrapper;

use crate::call::Call;
use crate::group::{test, Group, Test};
use crate::lengths;
use crate::tables::faults;

pub fn tests() -> Vec<Test> {
    let mut tests = vec![
        test("wrapper: cuts", wrapper::cuts),
        test("two orders: small tables", two_orders::small),
        test("two orders: random", |group| {
            two_orders::random(group, 20_000)
        }),
    ];
    tests.extend(calls::CALLS.into_iter().flat_map(tests_of));
    tests.extend(insertion::tests());
    tests
}

type Body = fn(&mut Group, &Call);

/// The groups of any call that is lent a table and a key.
pub fn tests_of(call: &'static Call) -> Vec<Test> {
    let bodies: [(&str, Body); 11] = [
        ("counts", faults::counts),
        ("faults", faults::each_place),
        ("each edge of 63", faults::each_edge),
        ("lengths", lengths::every_length),
        ("any tables, random", |group, call| {
            crate::random::cases(group, call, 60_000)
        }),
        ("small tables", small::all_keys),
        ("small tables, destinations", small::destinations),
        ("small tables, unsorted", small::unsorted),
        ("destinations of every length", small::every_length),
        ("random", |group, call| random::good(group, call, 10_000)),
        ("random with faults", |group, call| {
            random::spoiled(group, call, 30_000)
        }),
    ];
    let named = |(what, body): (&str, Body)| {
        let name = format!("{}: {what}", call.name);
        test(name, move |group| body(group, call))
    };
    bodies.into_iter().map(named).collect()
}
