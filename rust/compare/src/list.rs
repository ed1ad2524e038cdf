//! Groups for the list of a table.
pub mod calls;
pub mod dests;
pub mod laws;
pub mod random;
pub mod small;
mod wrapper;

use crate::group::{test, Test};
use crate::lengths;
use calls::LIST_TABLE;

pub fn tests() -> Vec<Test> {
    vec![
        test("list_table: lengths", |group| {
            lengths::every_length(group, &LIST_TABLE)
        }),
        test("list_table: any tables, random", |group| {
            crate::random::cases(group, &LIST_TABLE, 60_000)
        }),
        test("list_table: small tables", small::all_edges),
        test("list_table: every cut and count", small::cut_short),
        test("list_table: random", |group| random::good(group, 10_000)),
        test("list_table: random with faults", |group| {
            random::spoiled(group, 30_000)
        }),
        test("law: one table for each text", |group| {
            laws::one_table_each(group, 3_000)
        }),
        test("wrapper: list", wrapper::list),
    ]
}
