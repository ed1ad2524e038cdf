//! Groups for the translation of a key and the pair of its slot: those that the cuts have too, since
//! each is lent a table and a key.
pub mod calls;

use crate::cuts;
use crate::group::Test;

pub fn tests() -> Vec<Test> {
    calls::CALLS.into_iter().flat_map(cuts::tests_of).collect()
}
