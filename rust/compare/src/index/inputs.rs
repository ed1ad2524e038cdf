//! Tables with rising buckets, their indexes, and indexes that are wrong.
use crate::bucket_inputs::bucket_of;
use crate::cuts::inputs::{key_near, Table};
use crate::inputs::{random_bytes, Xorshift};

pub const PLACE_SIZE: usize = 2;

/// The bytes of these places.
pub fn index_of(places: &[u16]) -> Vec<u8> {
    places
        .iter()
        .flat_map(|place| place.to_be_bytes())
        .collect()
}

/// The index that belongs to table and bucket; zeros where none does.
pub fn right_index(pivots: &[u8], bucket: &[u8]) -> Vec<u8> {
    let mut index = vec![0; pivots.len() / 66 * PLACE_SIZE];
    // A refusal leaves them.
    let _ = reference::build_index(pivots, bucket, &mut index);
    index
}

/// Indexes near the right one: with a place fewer or more, a byte fewer or more, and with each
/// place one more, one less, the one before, the one after, 0, and low byte first.
pub fn wrong_indexes(right: &[u8]) -> Vec<Vec<u8>> {
    let count = right.len() / PLACE_SIZE;
    let places = right.as_chunks::<PLACE_SIZE>().0;
    let total = &right[right.len() - PLACE_SIZE..];
    let mut wrong = vec![
        vec![],
        right[PLACE_SIZE..].to_vec(),
        right[..right.len() - PLACE_SIZE].to_vec(),
        right[..right.len() - 1].to_vec(),
        [right, &[0]].concat(),
        [right, total].concat(),
        [right, &[0, 0]].concat(),
    ];
    for at in 0..count {
        let place = u16::from_be_bytes(places[at]);
        let [before, after] = [at.saturating_sub(1), (at + 1).min(count - 1)];
        for other in [
            place.wrapping_add(1).to_be_bytes(),
            place.wrapping_sub(1).to_be_bytes(),
            places[before],
            places[after],
            [0, 0],
            place.to_le_bytes(),
        ] {
            let mut changed = right.to_vec();
            changed[at * PLACE_SIZE..][..PLACE_SIZE].copy_from_slice(&other);
            wrong.push(changed);
        }
    }
    wrong.retain(|index| index != right);
    wrong.sort();
    wrong.dedup();
    wrong
}

/// Indexes that belong to some of the usual tables and buckets, and to none.
pub fn usual_indexes() -> Vec<Vec<u8>> {
    vec![
        vec![],
        vec![0; 3],
        index_of(&[0, 0]),
        index_of(&[0, 1]),
        index_of(&[0, 2]),
        index_of(&[0, 0, 0]),
        index_of(&[0; 64]),
    ]
}

/// A few small places, or bytes alone; none belongs to much.
pub fn random_index(random: &mut Xorshift) -> Vec<u8> {
    let count = random.below(8);
    let mut places: Vec<u16> = (0..count).map(|_| random.below(5) as u16).collect();
    places.sort_unstable();
    if let Some(first) = places.first_mut() {
        *first = 0;
    }
    if random.one_in(8) {
        return random_bytes(random, count);
    }
    index_of(&places)
}

/// Up to so many keys near the pivots, rising, in the table's range.
pub fn keys_inside(random: &mut Xorshift, table: &Table, entries: usize) -> Vec<Vec<u8>> {
    let mut keys: Vec<_> = (0..entries).map(|_| key_near(random, table)).collect();
    keys.retain(|key| reference::bounded_key(&table.pivots, key) == Ok(true));
    keys.sort();
    keys.dedup();
    keys
}

/// A table with a bucket and an index.
#[derive(Clone)]
pub struct Indexed {
    pub pivots: Vec<u8>,
    pub bucket: Vec<u8>,
    pub index: Vec<u8>,
}

impl Indexed {
    /// A bucket of these keys, and the index that belongs to it.
    pub fn new(pivots: &[u8], keys: &[impl AsRef<[u8]>]) -> Self {
        Self::of(pivots, &bucket_of(keys))
    }

    pub fn of(pivots: &[u8], bucket: &[u8]) -> Self {
        Indexed {
            pivots: pivots.to_vec(),
            bucket: bucket.to_vec(),
            index: right_index(pivots, bucket),
        }
    }

    pub fn with_index(&self, index: &[u8]) -> Self {
        Indexed {
            index: index.to_vec(),
            ..self.clone()
        }
    }

    pub fn slices(&self) -> [&[u8]; 3] {
        [&self.pivots, &self.bucket, &self.index]
    }

    pub fn with_key<'a>(&'a self, key: &'a [u8]) -> [&'a [u8]; 4] {
        [&self.pivots, &self.bucket, &self.index, key]
    }

    pub fn with_prefixes<'a>(&'a self, old: &'a [u8], new: &'a [u8]) -> [&'a [u8]; 5] {
        [&self.pivots, &self.bucket, &self.index, old, new]
    }
}
