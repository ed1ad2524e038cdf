//! Groups for buckets under another prefix.
pub mod calls;
mod dests;
mod faults;
mod laws;
pub mod random;
pub mod small;
mod wrapper;

use crate::group::{test, Group, Test};
use crate::lengths;

/// A bucket, a prefix and a new prefix.
pub type Slices<'a> = [&'a [u8]; 3];

pub fn tests() -> Vec<Test> {
    let mut tests = vec![
        test("buckets: all small ones", small::buckets),
        test("buckets: all small ones with wrong records", small::wrong),
        test("buckets: destinations of every length", small::destinations),
        test("buckets: all lengths of keys", small::lengths),
        test("buckets: first differences", small::first_differences),
        test("buckets: counts", faults::counts),
        test("buckets: faults", faults::each_place),
        test("buckets: every record", faults::every_record),
        test("buckets: every byte", faults::every_byte),
        test("wrapper: buckets", wrapper::buckets),
    ];
    for call in calls::CALLS {
        let name = format!("{}: every length", call.name);
        tests.push(test(name, |group| lengths::every_length(group, call)));
    }
    tests.extend(random_tests());
    tests
}

type Body = fn(&mut Group, usize);

/// So many random cases each.
fn random_tests() -> impl Iterator<Item = Test> {
    let bodies: [(&str, Body, usize); 8] = [
        ("buckets: any ones, random", random::any, 40_000),
        ("buckets: small ones, random", random::small, 10_000),
        ("buckets: large ones, random", random::large, 2_000),
        ("law: a bucket will fit", laws::will_fit, 4_000),
        ("law: the room of a bucket", laws::room, 4_000),
        ("law: a bucket renamed and back", laws::and_back, 4_000),
        ("law: a rising bucket stays rising", laws::rising, 4_000),
        ("law: a bucket key by key", laws::each_key, 4_000),
    ];
    let bodies = bodies.into_iter();
    bodies.map(|(name, body, count)| test(name, move |group| body(group, count)))
}
