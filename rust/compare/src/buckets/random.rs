//! Random buckets of up to 512 entries, whole and with one to three faults, the same in every run:
//! most keys begin with the prefix or nearly, and new prefixes are nearly too long.
use super::calls::TRANSLATE_BUCKET;
use super::dests::around;
use super::Slices;
use crate::bucket_inputs::{bucket_of, spoil};
use crate::group::Group;
use crate::inputs::{near, new_prefix, random_bytes, Xorshift, MAX_ENTRIES};

const SEED: u64 = 20_360_627;

/// A bucket's keys, a prefix and a new prefix.
pub struct Renaming {
    pub keys: Vec<Vec<u8>>,
    pub prefix: Vec<u8>,
    pub new_prefix: Vec<u8>,
}

/// How many entries: now and then as many as there may be, or nearly.
fn count(random: &mut Xorshift, limit: usize) -> usize {
    if random.one_in(8) {
        limit - random.below(3)
    } else {
        random.below(limit + 1)
    }
}

/// The prefix, or now and then something near it, and some bytes more.
fn key(random: &mut Xorshift, prefix: &[u8], others: usize, limit: usize) -> Vec<u8> {
    let mut key = if random.one_in(others) {
        near(random, prefix)
    } else {
        prefix.to_vec()
    };
    let more = random.below(limit);
    key.extend(random_bytes(random, more));
    key.truncate(64);
    key
}

/// Up to this many entries.
pub fn renaming(random: &mut Xorshift, entries: usize) -> Renaming {
    let len = match random.below(4) {
        0 => 0,
        1 => random.below(65),
        _ => 1 + random.below(12),
    };
    let prefix = random_bytes(random, len);
    let (others, limit) = (1 + random.below(4), 1 + random.below(30));
    let mut keys = vec![];
    for _ in 0..count(random, entries) {
        keys.push(key(random, &prefix, others, limit));
    }
    let longest = keys.iter().map(Vec::len).max().unwrap_or(0);
    let new_prefix = new_prefix(random, &prefix, longest);
    Renaming {
        keys,
        prefix,
        new_prefix,
    }
}

impl Renaming {
    pub fn bucket(&self) -> Vec<u8> {
        bucket_of(&self.keys)
    }
}

/// Whole, and then with one to three faults in the bucket; one prefix in eight is too long.
fn whole_and_spoiled(random: &mut Xorshift, mut renaming: Renaming, mut body: impl FnMut(Slices)) {
    let mut bucket = renaming.bucket();
    body([&bucket, &renaming.prefix, &renaming.new_prefix]);
    for _ in 0..=random.below(3) {
        spoil(random, &mut bucket);
    }
    match random.below(16) {
        0 => renaming.prefix.resize(65, 0),
        1 => renaming.new_prefix.resize(65, 0),
        _ => {}
    }
    body([&bucket, &renaming.prefix, &renaming.new_prefix]);
}

pub fn small(group: &mut Group, count: usize) {
    each(count, 6, |slices| around(group, slices));
}

pub fn large(group: &mut Group, count: usize) {
    each(count, MAX_ENTRIES, |slices| around(group, slices));
}

pub fn any(group: &mut Group, count: usize) {
    each_of_any(count, |slices| around(group, slices));
}

/// Each bucket has up to this many entries.
pub fn each(count: usize, entries: usize, mut body: impl FnMut(Slices)) {
    let mut random = Xorshift::new(SEED);
    for _ in 0..count {
        let renaming = renaming(&mut random, entries);
        whole_and_spoiled(&mut random, renaming, &mut body);
    }
}

/// Buckets and prefixes from one random key, as for the other calls.
pub fn each_of_any(count: usize, mut body: impl FnMut(Slices)) {
    let mut random = Xorshift::new(SEED);
    for _ in 0..count {
        let slices = crate::random::slices(&mut random, &TRANSLATE_BUCKET);
        let [bucket, prefix, new_prefix] = &slices[..] else {
            unreachable!("a slice for each argument")
        };
        body([bucket, prefix, new_prefix]);
    }
}
