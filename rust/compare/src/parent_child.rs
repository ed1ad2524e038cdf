//! Groups for the question of parent and child.
pub mod calls;
mod children;
mod laws;
mod random;
mod small;
mod wrapper;

use crate::group::{test, Test};
use crate::lengths;
use crate::tables::faults;
use calls::PARENT_KEYS_IN_CHILD_RANGE;

pub fn tests() -> Vec<Test> {
    let call = &PARENT_KEYS_IN_CHILD_RANGE;
    let name = |what| format!("{}: {what}", call.name);
    vec![
        test(name("small tables"), small::tables),
        test(name("unsorted"), small::unsorted),
        test(name("every length"), |group| {
            lengths::every_length(group, call)
        }),
        test(name("counts"), |group| faults::counts(group, call)),
        test(name("faults"), |group| faults::each_place(group, call)),
        test(name("counts and faults of the child"), small::child),
        test(name("each edge of 63"), small::each_edge),
        test(name("any tables, random"), |group| {
            crate::random::cases(group, call, 60_000)
        }),
        test(name("random"), |group| random::good(group, 10_000)),
        test(name("random with faults"), |group| {
            random::spoiled(group, 30_000)
        }),
        test("law: the child holds the slot's range", |group| {
            laws::holds_range(group, 20_000)
        }),
        test("wrapper: parent and child", wrapper::parent_child),
    ]
}
