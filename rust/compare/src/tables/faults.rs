//! Tables with one fault: a wrong count, and at each place a wrong mark, a malformed record, the
//! pivot before it again, or a pivot that falls.
use crate::asked::{Asked, MOST_DESTS};
use crate::call::{Call, Kind};
use crate::group::Group;
use crate::inputs::{byte_after, field_record, record, MAX, NO_EDGE};
use crate::lengths::{choices, usual};
use crate::table_inputs::{absent, rising, table, with};

/// The pivots as they are, and with a fault: of another length, malformed, a wrong mark, not
/// rising; and with another end, which may take the prefix away from a slot.
pub fn pivots_with_faults(good: &[u8]) -> Vec<Vec<u8>> {
    let last = good.len() / 66 - 1;
    let changed = |place, record: [u8; 66]| with(good, place, &record);
    vec![
        good.to_vec(),
        good[..good.len() - 1].to_vec(),
        [good, &good[..66]].concat(),
        changed(0, field_record(65)),
        changed(0, field_record(MAX)),
        changed(last, field_record(NO_EDGE)),
        changed(last, field_record(MAX)),
        with(good, 1, &good[..66]),
        changed(last, record(&[])),
        changed(0, record(&[])),
    ]
}

/// These pivots with good and bad slices for the other arguments: keys inside and outside, and
/// edges of each count near the right one.
fn with_pivots(group: &mut Group, call: &Call, pivots: Vec<u8>) {
    let edges = (pivots.len() / 66).saturating_sub(1);
    let slices: Vec<Vec<Vec<u8>>> = call
        .arguments
        .iter()
        .map(|(_, kind)| match kind {
            Kind::Pivots => vec![pivots.clone()],
            Kind::Child => vec![rising(3), pivots.clone()],
            Kind::Edges => {
                let counts = edges.saturating_sub(1)..=edges + 2;
                let wrong = field_record(MAX).repeat(edges);
                counts.map(absent).chain([wrong]).collect()
            }
            Kind::Key => [usual(Kind::Key), vec![vec![0x41, 0x01]]].concat(),
            other => usual(*other),
        })
        .collect();
    // Of a pivot more, too.
    let room = [pivots.len() + 66; MOST_DESTS];
    let dests: &[_] = if call.dests.is_empty() {
        &[[0, 0]]
    } else {
        &[[0, 0], room]
    };
    choices(group, call, &slices, dests);
}

/// From 0 to 66 pivots, whole, one byte short and one byte more.
pub fn counts(group: &mut Group, call: &Call) {
    each_count(|pivots| with_pivots(group, call, pivots));
}

pub fn each_count(mut body: impl FnMut(Vec<u8>)) {
    for count in 0..=66 {
        let whole = rising(count);
        body([&whole[..], &[0]].concat());
        if let Some((_, short)) = whole.split_last() {
            body(short.to_vec());
        }
        body(whole);
    }
}

pub fn each_place(group: &mut Group, call: &Call) {
    each_fault(|pivots| with_pivots(group, call, pivots));
}

/// Tables of 2, 3 and 64 pivots with each fault at each place.
pub fn each_fault(mut body: impl FnMut(Vec<u8>)) {
    for count in [2, 3, 64] {
        let good = rising(count);
        let one = |place| good.as_chunks().0[place];
        for place in 0..count {
            let longer = [&[0x41, 3 * place as u8][..], &[0xFF; 62]].concat();
            let others = [
                field_record(MAX),
                field_record(NO_EDGE),
                field_record(65),
                byte_after(one(place)),
                one(place.saturating_sub(1)),
                record(&[]),
                record(&longer),
            ];
            for other in others {
                body(with(&good, place, &other));
            }
        }
    }
}

/// Every edge of 63 in turn, in a call of pivots and edges, and of a key that both tables have.
pub fn each_edge(group: &mut Group, call: &Call) {
    each_edge_of_63(|pivots, edges| {
        let slices: [&[u8]; 3] = [pivots, edges, &[0x41, 0x5E]];
        let slices = &slices[..call.arguments.len()];
        group.case(call, &Asked::with_dests(slices, [64 * 66; MOST_DESTS]));
    });
}

/// Each sort of edge in every slot of 63, over pivots that share a prefix and over pivots that
/// share none.
pub fn each_edge_of_63(mut body: impl FnMut(&[u8], &[u8])) {
    let apart: Vec<[u8; 1]> = (0..64).map(|i| [4 * i]).collect();
    let apart: Vec<&[u8]> = apart.iter().map(|key| &key[..]).collect();
    for pivots in [rising(64), table(&apart)] {
        for place in 0..63 {
            let edges = [
                record(&[]),
                record(&[0x43; 64]),
                field_record(MAX),
                field_record(65),
            ];
            for edge in edges {
                body(&pivots, &with(&absent(63), place, &edge));
            }
        }
    }
}
