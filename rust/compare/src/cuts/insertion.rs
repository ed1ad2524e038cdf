//! Groups for a key that is put in as a pivot alone: large tables and laws.
mod large;
mod laws;

use crate::group::{test, Test};

pub fn tests() -> Vec<Test> {
    vec![
        test("insert_pivot: each slot of 62", large::each_slot),
        test("insert_pivot: each pivot of 64", large::each_pivot),
        test("law: insertion, small tables", laws::small),
        test("law: insertion, random", |group| {
            laws::random(group, 20_000)
        }),
        test("law: insertion until 64 pivots", |group| {
            laws::until_full(group, 60)
        }),
    ]
}
