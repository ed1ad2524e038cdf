//! Random tables with buckets of up to 512 entries near their pivots, good and with one to three
//! faults, the same in every run; and destinations around what is written.
use super::calls::{BUILD_INDEX, CALLS, CHECK_INDEX, CUTS, SLOT_ENTRIES, TRANSLATE_INDEX};
use super::inputs::{keys_inside, random_index, wrong_indexes, Indexed};
use crate::asked::Asked;
use crate::bucket_inputs::{bucket_of, spoil};
use crate::call::Call;
use crate::cuts::inputs::{good_table, good_table_of, key_near, spoil as spoil_records, Table};
use crate::dests::around;
use crate::group::Group;
use crate::inputs::{near, new_prefix, Xorshift, MAX_ENTRIES};

const SEED: u64 = 20_380_627;

/// What is asked of a table and a bucket beside the index.
pub struct Question {
    pub keys: Vec<Vec<u8>>,
    pub x: Indexed,
    /// A key to cut at: near a pivot, or an entry's, or near that.
    pub key: Vec<u8>,
    pub prefix: Vec<u8>,
    pub new_prefix: Vec<u8>,
}

/// So many entries at most; the prefix is one that some of the keys begin with, and the new one
/// makes the longest of these nearly too long.
pub fn question(random: &mut Xorshift, table: &Table, entries: usize) -> Question {
    let entries = random.below(entries + 1);
    let keys = keys_inside(random, table, entries);
    let mut one = key_near(random, table);
    if !keys.is_empty() && !random.one_in(3) {
        one = keys[random.below(keys.len())].clone();
    }
    let mut prefix = one[..random.below(one.len() + 1)].to_vec();
    if random.one_in(8) {
        prefix = near(random, &prefix);
        prefix.truncate(64);
    }
    let begins = keys.iter().filter(|key| key.starts_with(&prefix));
    let longest = begins.map(Vec::len).max().unwrap_or(0);
    let new_prefix = new_prefix(random, &prefix, longest.max(prefix.len()));
    let mut key = one;
    if random.one_in(3) {
        key = near(random, &key);
        key.truncate(64);
    }
    Question {
        x: Indexed::new(&table.pivots, &keys),
        keys,
        key,
        prefix,
        new_prefix,
    }
}

impl Question {
    /// The slices of a call, as many as it takes.
    pub fn slices(&self, call: &Call) -> Vec<&[u8]> {
        let [pivots, bucket, index] = self.x.slices();
        let mut slices = vec![pivots, bucket, index];
        match call.arguments.len() {
            4 => slices.push(&self.key),
            5 => slices.extend([&self.prefix[..], &self.new_prefix]),
            taken => slices.truncate(taken),
        }
        slices
    }

    /// With no more entries than there may be.
    pub fn truncated(mut self) -> Self {
        if self.keys.len() > MAX_ENTRIES {
            self.keys.truncate(MAX_ENTRIES);
            self.x = Indexed::of(&self.x.pivots, &bucket_of(&self.keys));
        }
        self
    }

    /// Each call, with destinations around what it writes; several slots.
    fn each_call(&self, group: &mut Group) {
        group.ask(&CHECK_INDEX, &self.x.slices());
        for slot in (0..self.x.index.len() as u64 / 2 + 1).step_by(3) {
            group.case(&SLOT_ENTRIES, &Asked::new(&self.x.slices(), slot, 0));
        }
        for call in CUTS.into_iter().chain([&BUILD_INDEX, &TRANSLATE_INDEX]) {
            around(group, call, &self.slices(call));
        }
    }
}

pub fn good(group: &mut Group, count: usize) {
    let mut random = Xorshift::new(SEED);
    for _ in 0..count {
        let table = good_table(&mut random);
        question(&mut random, &table, 12).each_call(group);
    }
}

/// Up to 64 pivots and up to 512 entries.
pub fn large(group: &mut Group, count: usize) {
    let mut random = Xorshift::new(SEED);
    for _ in 0..count {
        let pivots = 2 + random.below(63);
        let table = good_table_of(&mut random, pivots);
        question(&mut random, &table, 2 * MAX_ENTRIES)
            .truncated()
            .each_call(group);
    }
}

/// One to three faults: in the pivots, in the bucket, an entry elsewhere or outside, another index,
/// a key or prefix that is too long.
pub fn spoiled(group: &mut Group, count: usize) {
    let mut random = Xorshift::new(SEED);
    for _ in 0..count {
        let table = good_table(&mut random);
        let mut asked = question(&mut random, &table, 8);
        let wrong = wrong_indexes(&asked.x.index);
        for _ in 0..=random.below(3) {
            match random.below(8) {
                0 if asked.x.pivots.len() >= 66 => spoil_records(&mut random, &mut asked.x.pivots),
                1 => spoil(&mut random, &mut asked.x.bucket),
                2 => asked.x.index = wrong[random.below(wrong.len())].clone(),
                3 => asked.x.index = random_index(&mut random),
                4 => asked.key.resize(65, 0),
                5 => asked.new_prefix.resize(65, 0),
                6 => asked.keys.push(key_near(&mut random, &table)),
                _ => asked.keys.reverse(),
            }
            if random.one_in(4) {
                asked.x.bucket = bucket_of(&asked.keys);
            }
        }
        for call in CALLS {
            around(group, call, &asked.slices(call));
        }
    }
}
