//! A law of the archive's own answers: the list loses nothing. Two inputs with the same text are
//! the same bytes, where one of them is a table.
use super::dests::ROOM;
use crate::call::Hex;
use crate::cuts::inputs::{edge_record, good_table, key_near, spoil, Table};
use crate::cuts::small::{each_edges, tables_of, SHARED};
use crate::group::Group;
use crate::inputs::{field_record, near, record, Xorshift, MAX};
use crate::list_inputs::{joined, usual_inputs};
use crate::table_inputs::with;
use joistdenim::{list_table, pivot_key, wf_edges};
use std::collections::HashMap;

const SEED: u64 = 20_410_627;

/// Pivots of the small tables: ε, and keys of the bytes that the text has between and in place of
/// keys, some of them neighbours.
const PIVOTS: [&[u8]; 9] = [b"", b"\t", b"\n", b"\n\t", b"-", b"-.", b".", b"..", b"max"];

/// Their edges, beside none: the empty one, keys of the same bytes, and long ones.
const EDGES: [&[u8]; 9] = [
    b"",
    b"\t",
    b"\n",
    b"-",
    b".",
    b"..",
    b"2e",
    &[0x2E; 63],
    &[0x2E; 64],
];

/// The edges of an input that the archive takes as a table.
fn edges_of_table(input: &[u8]) -> Option<&[u8]> {
    let (count, records) = input.split_first_chunk()?;
    let pivots = usize::from(u16::from_be_bytes(*count)) * 66;
    let (pivots, edges) = records.split_at_checked(pivots)?;
    let taken = wf_edges(pivots, edges);
    taken.is_ok().then_some(edges)
}

/// The first input with each text; and how many inputs were refused, were a table without an
/// empty edge, and a table with one.
#[derive(Default)]
struct Texts {
    inputs: HashMap<Vec<u8>, Vec<u8>>,
    seen: [usize; 3],
}

impl Texts {
    fn list(&mut self, group: &mut Group, input: &[u8]) {
        let mut dest = [0; ROOM];
        let length = list_table(input, &mut dest).expect("there is room for any text");
        let text = dest[..length].to_vec();
        let first = self.inputs.entry(text).or_insert_with(|| input.to_vec());
        let edges = edges_of_table(input);
        let neither = || edges.is_none() && edges_of_table(first).is_none();
        group.check(first == input || neither(), || {
            format!("one text for two inputs: {} and {}", Hex(first), Hex(input))
        });
        let is_empty = |edge: &[u8]| edge == record(&[]);
        let sort = edges.map_or(0, |edges| 1 + usize::from(edges.chunks(66).any(is_empty)));
        self.seen[sort] += 1;
    }
}

/// The table; with one edge, one pivot or an end changed; and with a fault.
fn near_table(random: &mut Xorshift, table: &Table) -> Vec<Vec<u8>> {
    let (pivots, edges, last) = (&table.pivots, &table.edges, table.slots());
    let slot = random.below(last);
    let mut other = near(random, pivot_key(&edges[66 * slot..][..66]).unwrap_or(&[]));
    other.truncate(64);
    let pivot = record(&key_near(random, table));
    let whole = joined(pivots, edges);
    let mut spoiled = whole[2..].to_vec();
    spoil(random, &mut spoiled);
    let with_edge = |slot, edge| with(edges, slot, &edge_record(edge));
    vec![
        joined(pivots, &with_edge(slot, None)),
        joined(pivots, &with_edge(slot, Some(&[]))),
        joined(pivots, &with_edge(slot, Some(&other))),
        joined(&with(pivots, random.below(last + 1), &pivot), edges),
        joined(&with(pivots, 0, &record(&[])), &with_edge(0, None)),
        joined(
            &with(pivots, last, &field_record(MAX)),
            &with_edge(last - 1, None),
        ),
        [&whole[..2], &spoiled].concat(),
        whole,
    ]
}

/// The usual inputs, all small tables with each sort of edge in each slot, and so many random ones
/// with what is near them.
pub fn each_input(count: usize, mut body: impl FnMut(&[u8])) {
    for input in usual_inputs() {
        body(&input);
    }
    for shared in SHARED {
        for mut table in tables_of(&PIVOTS.map(|key| [shared, key].concat())) {
            each_edges(&mut table, &EDGES, |table| {
                body(&joined(&table.pivots, &table.edges));
            });
        }
    }
    let mut random = Xorshift::new(SEED);
    for _ in 0..count {
        let table = good_table(&mut random);
        for input in near_table(&mut random, &table) {
            body(&input);
        }
    }
}

pub fn one_table_each(group: &mut Group, count: usize) {
    let mut texts = Texts::default();
    each_input(count, |input| texts.list(group, input));
    group.sorts(&texts.seen);
}
