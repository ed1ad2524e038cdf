//! The index beside a bucket: "for each slot, the place of its first entry, and the total at the
//! end, two bytes each, high byte first". So it has a place for each pivot, the number of entries
//! whose key is below it.
use crate::buckets::{entry_bytes, read_entries, Kept, Renamed};
use crate::entry::{Entry, ENTRY_SIZE};
use crate::record::{short, Element};
use crate::refusal::{refuse_if, Refusal};
use crate::table::{pivot_records, read_pivots, Pivots};
use std::ops::Range;

pub const PLACE_SIZE: usize = 2;

/// A table, a bucket whose keys rise strictly inside its range, and the places of its index.
struct Indexed<'a> {
    pivots: Pivots<'a>,
    bucket: &'a [u8],
    entries: Vec<Entry<'a>>,
    places: Vec<usize>,
}

/// The places, in one pass over pivots and entries.
fn places(pivots: &[Element], entries: &[Entry]) -> Vec<usize> {
    let mut below = 0;
    let place = |pivot: &Element| {
        while below < entries.len() && Element::Key(entries[below].key) < *pivot {
            below += 1;
        }
        below
    };
    pivots.iter().map(place).collect()
}

impl<'a> Indexed<'a> {
    /// Causes 1, 2, 3, 14 and 5 of pivots and bucket; 2 of the keys and prefixes that are lent
    /// beside them comes before 3.
    fn read(pivots: &'a [u8], bucket: &'a [u8], keys: &[&[u8]]) -> Result<Self, Refusal> {
        let (records, entries) = (pivot_records(pivots)?, entry_bytes(bucket)?);
        let (pivots, entries) = (read_pivots(records)?, read_entries(entries)?);
        for key in keys {
            short(key)?;
        }
        let pivots = Pivots::rising(pivots)?;
        let rising = entries.is_sorted_by(|a, b| a.key < b.key);
        refuse_if(!rising, Refusal::EntriesUnsorted)?;
        // As they rise, all are in the range where the first and the last are.
        let ends = [entries.first(), entries.last()];
        let outside = |entry: &Entry| !pivots.bounds(Element::Key(entry.key));
        refuse_if(ends.into_iter().flatten().any(outside), Refusal::OutOfRange)?;
        let places = places(pivots.all(), &entries);
        Ok(Indexed {
            pivots,
            bucket,
            entries,
            places,
        })
    }

    /// Cause 15: "a given index isn't the one that belongs to table and bucket, its length
    /// included".
    fn check(&self, index: &[u8]) -> Result<(), Refusal> {
        let (given, rest) = index.as_chunks::<PLACE_SIZE>();
        let given = given.iter().map(|place| u16::from_be_bytes(*place));
        let right = rest.is_empty() && given.map(usize::from).eq(self.places.iter().copied());
        refuse_if(!right, Refusal::WrongIndex)
    }

    fn total(&self) -> usize {
        self.entries.len()
    }

    /// How many entries are below the key.
    fn below(&self, key: &[u8]) -> usize {
        self.entries.partition_point(|entry| entry.key < key)
    }

    /// The part of the bucket between two places.
    fn part(&self, places: Range<usize>) -> &'a [u8] {
        &self.bucket[places.start * ENTRY_SIZE..places.end * ENTRY_SIZE]
    }
}

/// Where these places go: cause 10.
fn room<'a>(places: &[usize], dest: &'a mut [u8]) -> Result<&'a mut [u8], Refusal> {
    let needed = places.len() * PLACE_SIZE;
    dest.get_mut(..needed).ok_or(Refusal::NoRoom)
}

fn put_places(places: &[usize], dest: &mut [u8]) {
    for (place, dest) in places.iter().zip(dest.as_chunks_mut().0) {
        *dest = (*place as u16).to_be_bytes();
    }
}

/// Writes entries and their places; where either destination is too short, to neither: cause 10.
/// Answers the total.
fn put(
    entries: &[u8],
    places: &[usize],
    dest_bucket: &mut [u8],
    dest_index: &mut [u8],
) -> Result<usize, Refusal> {
    let dest_bucket = dest_bucket.get_mut(..entries.len());
    let dest_bucket = dest_bucket.ok_or(Refusal::NoRoom)?;
    put_places(places, room(places, dest_index)?);
    dest_bucket.copy_from_slice(entries);
    Ok(entries.len() / ENTRY_SIZE)
}

/// Writes the index and answers the total.
pub fn build_index(pivots: &[u8], bucket: &[u8], dest: &mut [u8]) -> Result<usize, Refusal> {
    let indexed = Indexed::read(pivots, bucket, &[])?;
    put_places(&indexed.places, room(&indexed.places, dest)?);
    Ok(indexed.total())
}

/// Whether the index is the one that belongs to table and bucket: the total, or the refusal.
pub fn check_index(pivots: &[u8], bucket: &[u8], index: &[u8]) -> Result<usize, Refusal> {
    let indexed = Indexed::read(pivots, bucket, &[])?;
    indexed.check(index)?;
    Ok(indexed.total())
}

/// "A shelf's drawer is the part of the bucket between two places."
pub fn slot_entries<'a>(
    pivots: &'a [u8],
    bucket: &'a [u8],
    index: &[u8],
    slot: u64,
) -> Result<&'a [u8], Refusal> {
    let indexed = Indexed::read(pivots, bucket, &[])?;
    indexed.check(index)?;
    let slot = usize::try_from(slot).map_err(|_| Refusal::NoSuchSlot)?;
    let mut slots = indexed.places.windows(2);
    let bounds = slots.nth(slot).ok_or(Refusal::NoSuchSlot)?;
    Ok(indexed.part(bounds[0]..bounds[1]))
}

/// Writes the entries below the key, and their index by the table that a left cut leaves: of the
/// pivots below the key and the key. Answers the total written.
pub fn cut_index_left(
    pivots: &[u8],
    bucket: &[u8],
    index: &[u8],
    key: &[u8],
    dest_bucket: &mut [u8],
    dest_index: &mut [u8],
) -> Result<usize, Refusal> {
    let indexed = Indexed::read(pivots, bucket, &[key])?;
    let slot = indexed.pivots.cutoff_for_left(Element::Key(key))?;
    indexed.check(index)?;
    let total = indexed.below(key);
    let places = [&indexed.places[..=slot], &[total]].concat();
    put(indexed.part(0..total), &places, dest_bucket, dest_index)
}

/// Writes the entries from the key on, and their index by the table that a right cut leaves: of
/// the key and the pivots above it. Answers the total written.
pub fn cut_index_right(
    pivots: &[u8],
    bucket: &[u8],
    index: &[u8],
    key: &[u8],
    dest_bucket: &mut [u8],
    dest_index: &mut [u8],
) -> Result<usize, Refusal> {
    let indexed = Indexed::read(pivots, bucket, &[key])?;
    let slot = indexed.pivots.route(Element::Key(key))?;
    indexed.check(index)?;
    let from = indexed.below(key);
    let above = &indexed.places[slot + 1..];
    let mut places = vec![0];
    places.extend(above.iter().map(|place| place - from));
    let kept = indexed.part(from..indexed.total());
    put(kept, &places, dest_bucket, dest_index)
}

/// "translate all drawers in turn from one old prefix to one new one into one bucket, with the
/// places where each then begins and the total". Answers the total written.
pub fn translate_index(
    pivots: &[u8],
    bucket: &[u8],
    index: &[u8],
    prefix: &[u8],
    new_prefix: &[u8],
    dest_bucket: &mut [u8],
    dest_index: &mut [u8],
) -> Result<usize, Refusal> {
    let indexed = Indexed::read(pivots, bucket, &[prefix, new_prefix])?;
    indexed.check(index)?;
    let (mut kept, mut places) = (vec![], vec![0]);
    for bounds in indexed.places.windows(2) {
        let slot = indexed.entries[bounds[0]..bounds[1]].iter();
        kept.extend(slot.filter_map(|entry| Kept::of(entry, prefix, new_prefix)));
        places.push(kept.len());
    }
    let renamed = Renamed { kept };
    renamed.fit(dest_bucket.len() as u64)?;
    put_places(&places, room(&places, dest_index)?);
    renamed.put(dest_bucket)
}
