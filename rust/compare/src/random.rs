//! One group for each call: random slices, the same in every run. The slices of a case come from
//! one random key, so that they often begin alike; some are changed or are random bytes alone.
use crate::asked::{Asked, MOST_DESTS};
use crate::bucket_inputs::random_bucket;
use crate::call::{Call, Kind};
use crate::dests::around;
use crate::group::Group;
use crate::index::inputs::random_index;
use crate::inputs::{
    entry, field_record, near, random_bytes, record, Xorshift, BYTES, MAX, NO_EDGE,
};
use crate::list_inputs::joined;
use crate::pair_inputs::random_pair;
use crate::table_inputs::{random_edges, random_pivots};

const SEED: u64 = 20_250_627;

/// The key that the slices of one case come from: few or many kinds of bytes, runs of FF.
fn base(random: &mut Xorshift) -> Vec<u8> {
    let limit = if random.one_in(2) { 8 } else { 67 };
    let len = random.below(limit);
    match random.below(3) {
        0 => random_bytes(random, len),
        1 => vec![0xFF; len],
        _ => (0..len).map(|_| BYTES[random.below(4)]).collect(),
    }
}

fn random_record(random: &mut Xorshift, base: &[u8]) -> Vec<u8> {
    let mut key = near(random, base);
    key.truncate(64);
    let mut bytes = match random.below(16) {
        0 | 1 => field_record(MAX),
        2 => field_record(NO_EDGE),
        3 => field_record(random.next() as u16),
        _ => record(&key),
    }
    .to_vec();
    match random.below(16) {
        0 => bytes[random.below(66)] = random.next() as u8,
        1 => bytes = random_bytes(random, 66),
        2 => bytes.resize(random.below(141), 0),
        _ => {}
    }
    bytes
}

fn slice(random: &mut Xorshift, kind: Kind, base: &[u8]) -> Vec<u8> {
    match kind {
        Kind::Key => near(random, base),
        Kind::Record => random_record(random, base),
        Kind::Entry => match random_record(random, base).try_into() {
            Ok(record) => entry(&record).to_vec(),
            Err(bytes) => bytes,
        },
        Kind::Pivots | Kind::Child | Kind::Second => random_pivots(random, base),
        Kind::Pair => random_pair(random, base),
        Kind::Bucket => random_bucket(random, base),
        Kind::Index => random_index(random),
        Kind::Edges => random_edges(random, base),
        Kind::Input => joined(&random_pivots(random, base), &random_edges(random, base)),
    }
}

/// Slices for each argument, from one base.
pub fn slices(random: &mut Xorshift, call: &Call) -> Vec<Vec<u8>> {
    let base = base(random);
    let kinds = call.arguments.iter().map(|(_, kind)| *kind);
    kinds.map(|kind| slice(random, kind, &base)).collect()
}

pub fn cases(group: &mut Group, call: &Call, count: usize) {
    let mut random = Xorshift::new(SEED);
    for _ in 0..count {
        let slices = slices(&mut random, call);
        let slices: Vec<&[u8]> = slices.iter().map(|slice| &slice[..]).collect();
        let longest = if call.dests.len() < 2 { 141 } else { 600 };
        let mut dests = [0; MOST_DESTS];
        for len in dests.iter_mut().take(call.dests.len()) {
            *len = random.below(longest);
        }
        let place = random.below(8) as u64;
        let slices = &slices[..];
        let asked = Asked {
            slices,
            place,
            dests,
        };
        group.case(call, &asked);
    }
}

/// Random slices, with destinations around what is written.
pub fn around_written(group: &mut Group, call: &Call, count: usize) {
    let mut random = Xorshift::new(SEED);
    for _ in 0..count {
        let slices = slices(&mut random, call);
        let slices: Vec<&[u8]> = slices.iter().map(|slice| &slice[..]).collect();
        around(group, call, &slices);
    }
}
