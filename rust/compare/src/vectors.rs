//! The worked cases of the folder `vectors`, a group for each file: archive and reference must both
//! give what is written down.
use crate::asked::{Asked, MOST_DESTS, MOST_NUMBERS};
use crate::call::Call;
use crate::group::{test, Group, Test, Wanted};
use crate::{
    buckets, cuts, index, joining, keys, list, pairs, parent_child, renaming, tables, translation,
};
use vectors::{Case, Outcome};

pub fn tests() -> Vec<Test> {
    let topics = vectors::topics().into_iter();
    let mut tests: Vec<Test> = topics
        .map(|topic| {
            let name = format!("vectors: {topic}");
            test(name, move |group| of_topic(group, &topic))
        })
        .collect();
    tests.push(test("vectors: each call, taken and refused", each_call));
    tests
}

static CALLS: [&[&Call]; 12] = [
    &keys::calls::CALLS,
    &tables::calls::OF_PIVOTS,
    &[&tables::calls::INIT_PIVOT_TABLE],
    &cuts::calls::CALLS,
    &[&joining::calls::JOIN],
    &translation::calls::CALLS,
    &pairs::calls::CALLS,
    &renaming::calls::CALLS,
    &[&parent_child::calls::PARENT_KEYS_IN_CHILD_RANGE],
    &buckets::calls::CALLS,
    &index::calls::CALLS,
    &[&list::calls::LIST_TABLE],
];

fn calls() -> impl Iterator<Item = &'static Call> {
    CALLS.iter().copied().flatten().copied()
}

fn of_topic(group: &mut Group, topic: &str) {
    for case in vectors::cases(topic) {
        let call = calls().find(|call| call.name == case.call);
        match call.filter(|call| fits(call, &case)) {
            Some(call) => expect(group, call, &case),
            None => group.fail("no such call, or it isn't lent so much"),
        }
        if let Some(text) = group.failure() {
            let (line, name) = (case.line, &case.name);
            text.insert_str(0, &format!("line {line}, {name}: "));
            return;
        }
    }
}

/// Whether it is lent as many slices, numbers and destinations as the call takes, and no more is
/// answered than any call does.
fn fits(call: &Call, case: &Case) -> bool {
    let (answers, written) = match &case.outcome {
        Outcome::Refused(_) => (0, call.dests.len()),
        Outcome::Taken { answers, written } => (answers.len(), written.len()),
    };
    let lent = (case.slices.len(), case.number.is_some());
    answers <= MOST_NUMBERS
        && lent == (call.arguments.len(), call.takes_place)
        && [case.rooms.len(), written] == [call.dests.len(); 2]
}

fn expect(group: &mut Group, call: &Call, case: &Case) {
    let slices: Vec<&[u8]> = case.slices.iter().map(Vec::as_slice).collect();
    let mut dests = [0; MOST_DESTS];
    dests[..case.rooms.len()].copy_from_slice(&case.rooms);
    let asked = Asked {
        slices: &slices,
        place: case.number.unwrap_or(0),
        dests,
    };
    match &case.outcome {
        Outcome::Refused(number) => group.expect(call, &asked, &Wanted::Refusal(*number)),
        Outcome::Taken { answers, written } => {
            let mut heads: [&[u8]; MOST_DESTS] = [&[]; MOST_DESTS];
            for (head, bytes) in heads.iter_mut().zip(written) {
                *head = bytes;
            }
            group.expect(call, &asked, &Wanted::Answer(answers, heads));
        }
    }
}

/// No call is without a case that it takes, nor without one that it refuses.
fn each_call(group: &mut Group) {
    let topics = vectors::topics().into_iter();
    let cases: Vec<Case> = topics.flat_map(|topic| vectors::cases(&topic)).collect();
    for call in calls() {
        let refused = |case: &&Case| matches!(case.outcome, Outcome::Refused(_));
        let cases = cases.iter().filter(|case| case.call == call.name);
        let (refused, taken): (Vec<_>, Vec<_>) = cases.partition(refused);
        group.check(!refused.is_empty() && !taken.is_empty(), || {
            let (refused, taken) = (refused.len(), taken.len());
            format!("{}: {taken} cases taken, {refused} refused", call.name)
        });
    }
}
