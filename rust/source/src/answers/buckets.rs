//! Of buckets, and of the keys that a table's buckets hold.
use super::{entries_room, places_room, prefixes, records_room, Answer};
use crate::inputs::Inputs;
use crate::words;
use joistdenim::{Refusal, ENTRY_SIZE, MAX_ENTRIES, PLACE_SIZE};

fn translated(inputs: &Inputs, bucket: &[u8]) -> Answer {
    let (prefix, new_prefix) = prefixes(inputs);
    let mut dest = entries_room();
    let kept = joistdenim::translate_bucket(bucket, &prefix, &new_prefix, &mut dest)?;
    Ok(words::of_entries(&dest[..kept * ENTRY_SIZE]))
}

pub fn translate_bucket(inputs: &Inputs) -> Answer {
    translated(inputs, &inputs.entries("bucket"))
}

/// From a place on.
pub fn translate_bucket_internal(inputs: &Inputs) -> Answer {
    let from = inputs.number("idx") as usize * ENTRY_SIZE;
    translated(inputs, &inputs.entries("bucket")[from..])
}

/// Each key by itself; of several refusals the first in the order of the calls, here the smallest.
pub fn bounded_key_seq(inputs: &Inputs) -> Answer {
    let pivots = inputs.records("pt");
    let mut refusals: Vec<Refusal> = joistdenim::wf_pivots(&pivots).err().into_iter().collect();
    let mut all = true;
    for key in inputs.keys("keys") {
        match joistdenim::bounded_key(&pivots, &key) {
            Ok(yes) => all &= yes,
            Err(refusal) => refusals.push(refusal),
        }
    }
    match refusals.into_iter().min_by_key(|r| r.number()) {
        Some(refusal) => Err(refusal),
        None => Ok(words::of_bool(all)),
    }
}

/// Whether a bucket of these keys gets an index.
pub fn bounded_sorted_key_seq(inputs: &Inputs) -> Answer {
    let keys = inputs.words("keys");
    let bucket = words::entries(&keys.iter().flat_map(|key| [*key, "0"]).collect::<Vec<_>>());
    match joistdenim::build_index(&inputs.records("pt"), &bucket, &mut records_room()) {
        Ok(total) if total == keys.len() => Ok(words::of_bool(true)),
        Ok(total) => wrong_total(total),
        Err(Refusal::OutOfRange) => Ok(words::of_bool(false)),
        Err(refusal) => Err(refusal),
    }
}

/// A word that is none of the program's.
fn wrong_total(total: usize) -> Answer {
    Ok(format!("total-{total}"))
}

/// The buckets of all slots as one with its index.
pub fn translate_buckets(inputs: &Inputs) -> Answer {
    let pivots = inputs.records("pt");
    let all = inputs.words("buckets");
    let words: Vec<&str> = all.into_iter().filter(|word| *word != "|").collect();
    let bucket = words::entries(&words);
    let count = inputs.words("pt").len();
    let (mut index, mut places) = (places_room(count), places_room(count));
    joistdenim::build_index(&pivots, &bucket, &mut index)?;
    let (prefix, new_prefix) = prefixes(inputs);
    let mut dest = entries_room();
    let total = joistdenim::translate_index(
        &pivots,
        &bucket,
        &index,
        &prefix,
        &new_prefix,
        &mut dest,
        &mut places,
    )?;
    let place = |at: &[u8]| usize::from(u16::from_be_bytes([at[0], at[1]]));
    let places: Vec<usize> = places.chunks(PLACE_SIZE).map(place).collect();
    if places.last() != Some(&total) || !places.is_sorted() || total > MAX_ENTRIES {
        return wrong_total(total);
    }
    let slot = |ends: &[usize]| {
        let entries = &dest[ends[0] * ENTRY_SIZE..ends[1] * ENTRY_SIZE];
        format!("| {}", words::of_entries(entries))
    };
    let slots: Vec<String> = places.windows(2).map(slot).collect();
    Ok(slots.join(" "))
}
