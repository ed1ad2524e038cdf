//! Tables with edges, and keys near their pivots.
use crate::inputs::{field_record, random_bytes, record, Xorshift, MAX, NO_EDGE};
use crate::table_inputs::with;
use reference::{range_prefix, Element};

const BYTES: [u8; 5] = [0x00, 0x01, 0x41, 0xFE, 0xFF];
const LONGEST: usize = 64;

/// The record of an edge.
pub fn edge_record(edge: Option<&[u8]>) -> [u8; 66] {
    edge.map_or(field_record(NO_EDGE), record)
}

/// All keys that go on from `shared` with up to two bytes of 00, 01, 41, FE, FF: 31.
pub fn keys_after(shared: &[u8]) -> Vec<Vec<u8>> {
    let mut keys = vec![shared.to_vec()];
    let mut from = 0;
    for _ in 0..2 {
        let until = keys.len();
        for i in from..until {
            keys.extend(BYTES.map(|byte| [&keys[i][..], &[byte]].concat()));
        }
        from = until;
    }
    keys
}

/// A table whose pivots are these rising keys, and then max where it goes up to max.
pub struct Table {
    pub keys: Vec<Vec<u8>>,
    pub to_max: bool,
    pub pivots: Vec<u8>,
    pub edges: Vec<u8>,
}

impl Table {
    pub fn new(keys: Vec<Vec<u8>>, to_max: bool) -> Self {
        let mut pivots: Vec<u8> = keys.iter().flat_map(|key| record(key)).collect();
        if to_max {
            pivots.extend(field_record(MAX));
        }
        let edges = field_record(NO_EDGE).repeat(pivots.len() / 66 - 1);
        Table {
            keys,
            to_max,
            pivots,
            edges,
        }
    }

    pub fn slots(&self) -> usize {
        self.edges.len() / 66
    }

    /// The prefix of a slot's range.
    pub fn prefix(&self, slot: usize) -> &[u8] {
        let right = self.keys.get(slot + 1);
        let right = right.map_or(Element::Max, |key| Element::Key(key));
        range_prefix(&self.keys[slot], right)
    }

    pub fn put_edge(&mut self, slot: usize, edge: Option<&[u8]>) {
        self.edges = with(&self.edges, slot, &edge_record(edge));
    }

    /// Not below the first pivot and not above the last.
    pub fn reaches(&self, key: &[u8]) -> bool {
        let above = |last: &Vec<u8>| self.to_max || key <= last;
        self.keys.first().is_some_and(|first| &first[..] <= key)
            && self.keys.last().is_some_and(above)
    }
}

/// More bytes for a key: few or many, of few kinds or of all.
fn tail(random: &mut Xorshift, room: usize) -> Vec<u8> {
    let limit = if random.one_in(3) { room } else { room.min(3) };
    let len = random.below(limit + 1);
    match random.below(4) {
        0 => random_bytes(random, len),
        1 => vec![0xFF; len],
        _ => (0..len).map(|_| BYTES[random.below(5)]).collect(),
    }
}

fn drawn_out(random: &mut Xorshift, mut key: Vec<u8>) -> Vec<u8> {
    key.extend(tail(random, LONGEST - key.len()));
    key
}

/// Keys that begin alike, rising.
fn rising_keys(random: &mut Xorshift, wanted: usize) -> Vec<Vec<u8>> {
    let shared = match random.below(3) {
        0 => random.below(4),
        1 => random.below(LONGEST),
        _ => LONGEST - 1 - random.below(16),
    };
    let shared = if random.one_in(4) {
        vec![0xFF; shared]
    } else {
        random_bytes(random, shared)
    };
    let mut keys = vec![shared.clone(), [&shared[..], &[0x41]].concat()];
    for _ in 0..2 * wanted {
        let key = drawn_out(random, shared.clone());
        keys.push(if random.one_in(8) {
            stepped(random, key)
        } else {
            key
        });
    }
    keys.sort();
    keys.dedup();
    while keys.len() > wanted {
        keys.remove(random.below(keys.len()));
    }
    keys
}

/// The key with one byte raised or lowered, and ended there or not.
fn stepped(random: &mut Xorshift, mut key: Vec<u8>) -> Vec<u8> {
    if !key.is_empty() {
        let place = random.below(key.len());
        let change = if random.one_in(2) { 1 } else { 0xFF };
        key[place] = key[place].wrapping_add(change);
        key.truncate(if random.one_in(2) { place + 1 } else { LONGEST });
    }
    key
}

/// The key with its last byte changed by 1: FF lowers it.
fn neighbour(key: &mut [u8], change: u8) {
    if let Some(last) = key.last_mut() {
        *last = last.wrapping_add(change);
    }
}

/// A well-formed table of 2 to 64 pivots, most with few.
pub fn good_table(random: &mut Xorshift) -> Table {
    let limit = if random.one_in(8) { 63 } else { 5 };
    let pivots = 2 + random.below(limit);
    good_table_of(random, pivots)
}

/// A table of so many pivots, or of fewer where their keys leave no room for more, that is well
/// formed as far as it has at most 64. Keys and edges are often so long that a cut edge or a
/// translated key has nearly 64 bytes, or a few more.
pub fn good_table_of(random: &mut Xorshift, pivots: usize) -> Table {
    let to_max = random.one_in(4);
    let mut table = Table::new(rising_keys(random, pivots - usize::from(to_max)), to_max);
    for slot in 0..table.slots() {
        let prefix = table.prefix(slot).len();
        if prefix == 0 || random.one_in(4) {
            continue;
        }
        let len = match random.below(6) {
            0 => random.below(4),
            1 => (prefix + random.below(4)).min(LONGEST),
            _ => LONGEST - random.below(3),
        };
        let edge = random_bytes(random, len);
        table.put_edge(slot, Some(&edge));
    }
    table
}

/// A key of at most 64 bytes near one of the pivots.
pub fn key_near(random: &mut Xorshift, table: &Table) -> Vec<u8> {
    let mut key = table.keys[random.below(table.keys.len())].clone();
    match random.below(9) {
        0 => {}
        1 => key.truncate(random.below(key.len() + 1)),
        2 => key.resize(LONGEST, BYTES[random.below(5)]),
        3 => key = stepped(random, key),
        4 => neighbour(&mut key, 1),
        5 => neighbour(&mut key, 0xFF),
        6 => {
            neighbour(&mut key, 0xFF);
            key.resize(LONGEST, 0xFF);
        }
        _ => key = drawn_out(random, key),
    }
    key
}

/// One fault in a slice of records: a byte changed, a record elsewhere again, a mark, an edge
/// that may stand where the range has no prefix, bytes or a record fewer or more.
pub fn spoil(random: &mut Xorshift, slice: &mut Vec<u8>) {
    let place = random.below(slice.len() / 66);
    let other = random.below(slice.len() / 66);
    let one = slice[other * 66..][..66].to_vec();
    match random.below(8) {
        0 => slice[place * 66 + random.below(66)] = random.next() as u8,
        1 => *slice = with(slice, place, &one),
        2 => *slice = with(slice, place, &field_record(MAX)),
        3 => *slice = with(slice, place, &field_record(NO_EDGE)),
        4 => *slice = with(slice, place, &record(&[0x43])),
        5 => slice.truncate(random.below(slice.len())),
        6 => slice.extend(one),
        _ => slice.extend(random_bytes(random, 1)),
    }
}
