//! Groups for the index beside a bucket.
pub mod calls;
mod faults;
pub mod inputs;
mod laws;
mod random;
mod small;
mod wrapper;

use crate::group::{test, Group, Test};
use calls::CALLS;

pub fn tests() -> Vec<Test> {
    let mut tests = vec![
        test("index: all small ones, built", small::built),
        test("index: all small ones, checked", small::checked),
        test("index: all small ones, slots", small::slots),
        test("index: all small ones, cut", small::cuts),
        test(
            "index: small ones, cut, destinations",
            small::cut_destinations,
        ),
        test("index: all small ones, renamed", small::renamed),
        test("index: destinations of every length", small::every_length),
        test("index: counts", faults::counts),
        test("index: faults", faults::each_place),
        test("index: each place of 64 wrong", faults::each_wrong_index),
        test("wrapper: index", wrapper::indexes),
    ];
    for call in CALLS {
        let name = format!("{}: faults in each slice", call.name);
        tests.push(test(name, |group| faults::some(group, call)));
        let name = format!("{}: every length", call.name);
        tests.push(test(name, |group| faults::lengths(group, call)));
        let name = format!("{}: random", call.name);
        tests.push(test(name, |group| {
            crate::random::cases(group, call, 20_000)
        }));
    }
    tests.extend(random_tests());
    tests
}

type Body = fn(&mut Group, usize);

/// So many random cases each.
fn random_tests() -> impl Iterator<Item = Test> {
    let bodies: [(&str, Body, usize); 7] = [
        ("index: good ones, random", random::good, 10_000),
        ("index: large ones, random", random::large, 300),
        ("index: random with faults", random::spoiled, 20_000),
        ("law: places and slots", laws::places_and_slots, 4_000),
        (
            "law: only the index that is built",
            laws::only_the_built,
            4_000,
        ),
        ("law: cuts of an index", laws::cuts, 6_000),
        ("law: all drawers in turn", laws::drawers_in_turn, 6_000),
    ];
    let bodies = bodies.into_iter();
    bodies.map(|(name, body, count)| test(name, move |group| body(group, count)))
}
