//! Keys, records and tables, the same in every run.
use crate::lent::Slices;
use joistdenim::RECORD_SIZE;
use std::rc::Rc;

pub const NO_EDGE: u16 = 65_534;
pub const MAX: u16 = 65_535;

/// A record with this length field and these bytes.
pub fn record(field: u16, bytes: &[u8]) -> Rc<[u8]> {
    let mut record = vec![0; RECORD_SIZE];
    record[..2].copy_from_slice(&field.to_be_bytes());
    record[2..2 + bytes.len()].copy_from_slice(bytes);
    record.into()
}

/// The record of a key.
pub fn key_record(key: &[u8]) -> Rc<[u8]> {
    record(key.len() as u16, key)
}

/// Random numbers.
pub struct Xorshift(u64);

impl Xorshift {
    pub fn new(seed: u64) -> Self {
        Xorshift(seed ^ 0x9E37_79B9_7F4A_7C15)
    }

    fn next(&mut self) -> u64 {
        self.0 ^= self.0 << 13;
        self.0 ^= self.0 >> 7;
        self.0 ^= self.0 << 17;
        self.0
    }

    /// A number below `limit`.
    pub fn below(&mut self, limit: usize) -> usize {
        ((self.next() >> 16) % limit as u64) as usize
    }

    /// Bytes without FF: the runs of FF that a call looks for are put in on purpose.
    pub fn bytes(&mut self, len: usize) -> Vec<u8> {
        (0..len).map(|_| self.below(0xFF) as u8).collect()
    }
}

/// Many, so that the branches of one pass aren't learned by heart.
const INPUTS: usize = 64;

/// Inputs of a case, of four kinds in turn.
pub fn inputs<const S: usize>(mut one: impl FnMut(usize) -> Slices<S>) -> Vec<Slices<S>> {
    (0..INPUTS).map(|i| one(i % 4)).collect()
}

/// A prefix of the key, of any length, and another one that isn't longer.
pub fn prefixes(random: &mut Xorshift, key: &[u8]) -> Slices<2> {
    let old = random.below(key.len() + 1);
    let new = random.below(old + 1);
    let new = random.bytes(new);
    [key[..old].into(), new.into()]
}

/// A range from a left key: up to a key that goes on after the first difference, up to one that
/// ends there, the same with FF after it on the left, and up to max with FF alone on the left.
pub fn range(random: &mut Xorshift, key: usize, kind: usize) -> Slices<2> {
    let mut left = random.bytes(key);
    let run = random.below(key);
    let mut right = [&left[..run], &[left[run] + 1]].concat();
    match kind {
        0 => right.extend(random.bytes(key - run - 1)),
        1 => {}
        2 => left[run + 1..].fill(0xFF),
        _ => return [vec![0xFF; key].into(), record(MAX, &[])],
    }
    [left.into(), key_record(&right)]
}

/// A well-formed table. The pivots share the first half of their bytes, which is so the prefix of
/// every slot; three slots of four have an edge of as many bytes.
pub struct Table {
    keys: Vec<Vec<u8>>,
    shared: usize,
    step: usize,
    pub pivots: Rc<[u8]>,
    pub edges: Rc<[u8]>,
}

impl Table {
    pub fn new(random: &mut Xorshift, key: usize, count: usize) -> Self {
        let shared = key / 2;
        // The byte after the shared ones: each pivot has the first half of a step, which leaves
        // room for keys between it and the next pivot.
        let step = 256 / count;
        let head = random.bytes(shared);
        let mut keys = vec![];
        for i in 0..count {
            let byte = i * step + random.below(step / 2);
            let mut pivot = [&head[..], &[byte as u8]].concat();
            pivot.extend(random.bytes(key - shared - 1));
            pivot[shared + 1] /= 2;
            keys.push(pivot);
        }
        let mut edges = vec![];
        for _ in 1..count {
            let edge = random.bytes(shared);
            let absent = random.below(4) == 0;
            edges.extend_from_slice(&if absent {
                record(NO_EDGE, &[])
            } else {
                key_record(&edge)
            });
        }
        let pivots: Vec<u8> = keys
            .iter()
            .flat_map(|key| key_record(key).to_vec())
            .collect();
        Table {
            keys,
            shared,
            step,
            pivots: pivots.into(),
            edges: edges.into(),
        }
    }

    /// What all pivots begin with.
    pub fn prefix(&self) -> Rc<[u8]> {
        self.keys[0][..self.shared].into()
    }

    /// The table as its list is asked for: the count of the pivots before them and the edges.
    pub fn input(&self) -> Rc<[u8]> {
        let count = (self.keys.len() as u16).to_be_bytes();
        [&count[..], &self.pivots, &self.edges].concat().into()
    }

    /// A key as long as the pivots, inside a random slot. Half of the keys share one byte more
    /// with the pivot on their left, so that a left cut at them has a longer edge to write.
    pub fn key_inside(&self, random: &mut Xorshift) -> Rc<[u8]> {
        let slot = random.below(self.keys.len() - 1);
        let left = &self.keys[slot];
        let mut key = left[..=self.shared].to_vec();
        key.extend(random.bytes(left.len() - key.len()));
        if random.below(2) == 0 {
            key[self.shared + 1] |= 0x80;
        } else {
            let byte = slot * self.step + self.step / 2 + random.below(self.step / 2);
            key[self.shared] = byte as u8;
        }
        key.into()
    }
}
