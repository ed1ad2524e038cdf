//! Groups for the calls on tables.
pub mod calls;
pub mod faults;
mod small;
mod wrapper;

use crate::group::{test, Test};
use crate::{lengths, random};

pub fn tests() -> Vec<Test> {
    let mut tests = vec![
        test("init_pivot_table: every length", small::first_table),
        test("contains_range: small tables", small::ranges),
        test("wf_edges: small tables", small::edges),
        test("wf_edges: each edge of 63", |group| {
            faults::each_edge(group, &calls::WF_EDGES)
        }),
        test("wrapper: tables", wrapper::tables),
    ];
    for call in calls::OF_PIVOTS {
        let name = call.name;
        tests.push(test(format!("{name}: counts"), |group| {
            faults::counts(group, call)
        }));
        tests.push(test(format!("{name}: faults"), |group| {
            faults::each_place(group, call)
        }));
        tests.push(test(format!("{name}: lengths"), |group| {
            lengths::every_length(group, call)
        }));
        tests.push(test(format!("{name}: random"), |group| {
            random::cases(group, call, 60_000)
        }));
    }
    for call in calls::OF_KEY {
        let name = call.name;
        tests.push(test(format!("{name}: small tables"), |group| {
            small::all_keys(group, call)
        }));
        tests.push(test(format!("{name}: large tables"), |group| {
            small::large(group, call)
        }));
    }
    tests
}
