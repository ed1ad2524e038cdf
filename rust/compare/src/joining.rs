//! Groups for two tables put together.
pub mod calls;
mod faults;
mod laws;
pub mod random;
mod small;
mod wrapper;

use crate::group::{test, Test};
use crate::lengths;
use calls::JOIN;

pub fn tests() -> Vec<Test> {
    let mut tests = vec![
        test("join: small tables split", small::splits),
        test("join: pairs of small tables", small::pairs),
        test("join: small tables, destinations", small::destinations),
        test("join: destinations of every length", small::every_length),
        test("join: split of 64 and 65 pivots", small::large),
        test("join: faults in each slice", faults::some),
        test("join: faults in each slice, small tables", faults::small),
        test("join: counts", faults::counts),
        test("join: faults", faults::each_place),
        test("join: each edge of 63", faults::each_edge),
        test("join: lengths", |group| lengths::every_length(group, &JOIN)),
        test("wrapper: join", wrapper::joins),
    ];
    tests.extend(random_tests());
    tests
}

fn random_tests() -> Vec<Test> {
    vec![
        test("join: any tables, random", |group| {
            crate::random::cases(group, &JOIN, 60_000)
        }),
        test("join: random", |group| random::good(group, 10_000)),
        test("join: random around 64 pivots", |group| {
            random::around_most(group, 4_000)
        }),
        test("join: random with faults", |group| {
            random::spoiled(group, 30_000)
        }),
        test("law: join, small tables", laws::small),
        test("law: join, random", |group| laws::random(group, 20_000)),
        test("law: join around 64 pivots", |group| {
            laws::around_most(group, 1_000)
        }),
    ]
}
