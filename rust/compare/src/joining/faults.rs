//! Two tables of which one or both have faults, in each of the four slices.
use super::calls::{slices, JOIN};
use crate::asked::Asked;
use crate::cuts::records::Records;
use crate::cuts::small::{tables as small_tables, SHARED};
use crate::dests::around;
use crate::group::Group;
use crate::inputs::{field_record, record, MAX};
use crate::lengths::choices;
use crate::table_inputs::{absent, edges_of_t, pivots_of_t, rising, table, with};
use crate::tables::faults::{each_count, each_edge_of_63, each_fault, pivots_with_faults};

/// The edges as they are, none, and with a fault.
fn edges_with_faults(good: &[u8]) -> Vec<Vec<u8>> {
    let last = good.len() / 66 - 1;
    vec![
        good.to_vec(),
        absent(last + 1),
        good[..good.len() - 1].to_vec(),
        [good, &good[..66]].concat(),
        with(good, 0, &field_record(65)),
        with(good, last, &field_record(MAX)),
    ]
}

/// Each fault in each of the four slices, beside each in the others, of a table up to and from a
/// pivot.
fn each_slice(group: &mut Group, whole: &Records, place: usize, dests: &[[usize; 2]]) {
    let [first, second] = whole.halves(place);
    let lent = [
        pivots_with_faults(&first.pivots),
        edges_with_faults(&first.edges),
        pivots_with_faults(&second.pivots),
        edges_with_faults(&second.edges),
    ];
    choices(group, &JOIN, &lent, dests);
}

/// Of T, and of 5 and 65 pivots.
pub fn some(group: &mut Group) {
    let edges = |count: usize| record(&[0x43]).repeat(count);
    for (pivots, edges, place) in [
        (pivots_of_t(), edges_of_t(), 1),
        (rising(5), edges(4), 2),
        (rising(65), edges(64), 32),
    ] {
        let [exact, short] = [[pivots.len(), edges.len()], [pivots.len(), edges.len() - 1]];
        let dests = [[0, 0], exact, short];
        each_slice(group, &Records { pivots, edges }, place, &dests);
    }
}

/// Of every small table of three pivots. In some slots an edge stands over an empty prefix.
pub fn small(group: &mut Group) {
    for shared in SHARED {
        for mut table in small_tables(shared) {
            for slot in 0..table.slots() {
                table.put_edge(slot, Some(&[0x43]));
            }
            if table.slots() == 2 {
                each_slice(group, &Records::of(&table), 1, &[[198, 132]]);
            }
        }
    }
}

/// These pivots as the first and as the second table, with edges of each count near the right one,
/// beside a good table that would meet them, one that doesn't, and a bad one.
fn with_pivots(group: &mut Group, pivots: Vec<u8>) {
    let count = (pivots.len() / 66).saturating_sub(1);
    let last = pivots.len().saturating_sub(66);
    let end = pivots[last..].to_vec();
    let edges: Vec<_> = (count.saturating_sub(1)..=count + 1).map(absent).collect();
    let wrong = field_record(65).to_vec();
    let dests = [[0, 0], [pivots.len() + 66, pivots.len()]];
    let ends = vec![
        [&end[..], &field_record(MAX)].concat(),
        rising(2),
        [record(&[0x43]).to_vec(), wrong.clone()].concat(),
    ];
    let lent = [vec![pivots.clone()], edges.clone(), ends, vec![absent(1)]];
    choices(group, &JOIN, &lent, &dests);
    let starts = vec![
        table(&[&[0x41], &[0x41, 0x00]]),
        rising(2),
        [record(&[0x40]).to_vec(), wrong].concat(),
    ];
    let lent = [starts, vec![absent(1)], vec![pivots], edges];
    choices(group, &JOIN, &lent, &dests);
}

/// From 0 to 66 pivots in either table, whole, one byte short and one byte more.
pub fn counts(group: &mut Group) {
    each_count(|pivots| with_pivots(group, pivots));
}

/// Either table of 2, 3 and 64 pivots with each fault at each place.
pub fn each_place(group: &mut Group) {
    each_fault(|pivots| with_pivots(group, pivots));
}

/// Each sort of edge in each of the 63 slots of two tables together.
pub fn each_edge(group: &mut Group) {
    each_edge_of_63(|pivots, edges| {
        let whole = Records {
            pivots: pivots.to_vec(),
            edges: edges.to_vec(),
        };
        for place in [1, 32, 62] {
            let [first, second] = whole.halves(place);
            around(group, &JOIN, &slices([&first, &second]));
            let lent = slices([&second, &first]);
            group.case(&JOIN, &Asked::with_dests(&lent, [64 * 66; 2]));
        }
    });
}
