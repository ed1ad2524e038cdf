//! Laws between the answers of the archive's calls on buckets.
use super::dests::lengths_around;
use super::random::{renaming, Renaming};
use crate::answers;
use crate::bucket_inputs::{bucket_of, numbered, spoil};
use crate::call::Hex;
use crate::group::Group;
use crate::inputs::{record, Entry, Xorshift, ENTRY_SIZE};
use joistdenim::{change_prefix, compare, entry_key, translate_bucket, translate_bucket_will_fit};
use std::cmp::Ordering;

const SEED: u64 = 20_370_627;
/// Enough that most have entries with and without the prefix.
const ENTRIES: usize = 24;

fn entries(bucket: &[u8]) -> &[Entry] {
    bucket.as_chunks().0
}

fn renamed(bucket: &[u8], old: &[u8], new: &[u8]) -> Result<Vec<u8>, u32> {
    answers::entries(|dest| translate_bucket(bucket, old, new, dest))
}

fn text(bucket: &[u8], old: &[u8], new: &[u8]) -> String {
    format!("{}, {} to {}", Hex(bucket), Hex(old), Hex(new))
}

fn each_renaming(count: usize, mut body: impl FnMut(&mut Xorshift, Renaming)) {
    let mut random = Xorshift::new(SEED);
    for _ in 0..count {
        let renaming = renaming(&mut random, ENTRIES);
        body(&mut random, renaming);
    }
}

/// "It refuses 1 and 2, and else says no exactly where the call answers 8 or 10."
pub fn will_fit(group: &mut Group, count: usize) {
    let mut seen = [0; 3];
    each_renaming(count, |random, renaming| {
        let (old, new) = (&renaming.prefix, &renaming.new_prefix);
        let mut bucket = renaming.bucket();
        if random.one_in(4) {
            spoil(random, &mut bucket);
        }
        for len in lengths_around([&bucket, old, new]) {
            let called = translate_bucket(&bucket, old, new, &mut vec![0; len]);
            let wanted = match called.map_err(|refusal| refusal.number()) {
                Ok(_) => Ok(true),
                Err(8 | 10) => Ok(false),
                Err(number) => Err(number),
            };
            let fits = translate_bucket_will_fit(&bucket, old, new, len as u64);
            let fits = fits.map_err(|refusal| refusal.number());
            group.check(fits == wanted, || {
                let case = text(&bucket, old, new);
                format!("{case}, {len}: {fits:?}, called {wanted:?}")
            });
            seen[wanted.map_or(2, usize::from)] += 1;
        }
    });
    group.sorts(&seen);
}

/// A destination that holds the entries kept is taken and a shorter one is 10; a longer one, as
/// long as the bucket or not, gets the same answer and bytes.
pub fn room(group: &mut Group, count: usize) {
    let mut seen = [0; 2];
    each_renaming(count, |_, renaming| {
        let (old, new) = (&renaming.prefix, &renaming.new_prefix);
        let bucket = renaming.bucket();
        let Ok(moved) = renamed(&bucket, old, new) else {
            return;
        };
        for len in lengths_around([&bucket, old, new]) {
            let mut left = vec![7; len];
            let got = translate_bucket(&bucket, old, new, &mut left).map_err(|r| r.number());
            let mut wanted = vec![7; len];
            let fits = moved.len() <= len;
            let answer = if fits {
                wanted[..moved.len()].copy_from_slice(&moved);
                Ok(moved.len() / ENTRY_SIZE)
            } else {
                Err(10)
            };
            group.check(got == answer && left == wanted, || {
                let case = text(&bucket, old, new);
                format!("{case}, {len}: {got:?}, wanted {answer:?}")
            });
            seen[usize::from(fits)] += 1;
        }
    });
    group.sorts(&seen);
}

/// Renamed and then back, a bucket has the entries that begin with the prefix, as they were.
pub fn and_back(group: &mut Group, count: usize) {
    let mut seen = [0; 2];
    each_renaming(count, |_, renaming| {
        let (old, new) = (&renaming.prefix, &renaming.new_prefix);
        let bucket = renaming.bucket();
        let moved = renamed(&bucket, old, new);
        seen[usize::from(moved.is_ok())] += 1;
        let Ok(moved) = moved else {
            return;
        };
        let begins = |entry: &&Entry| entry_key(&entry[..]).is_ok_and(|key| key.starts_with(old));
        let kept: Vec<Entry> = entries(&bucket).iter().filter(begins).copied().collect();
        let back = renamed(&moved, new, old);
        group.check(back.as_deref() == Ok(kept.as_flattened()), || {
            text(&bucket, old, new)
        });
    });
    group.sorts(&seen);
}

/// "Strictly rising entries stay so."
pub fn rising(group: &mut Group, count: usize) {
    let mut seen = [0; 2];
    each_renaming(count, |_, mut renaming| {
        renaming.keys.sort();
        renaming.keys.dedup();
        let bucket = renaming.bucket();
        let (old, new) = (&renaming.prefix, &renaming.new_prefix);
        let Ok(moved) = renamed(&bucket, old, new) else {
            return;
        };
        let rises = |pair: &[Entry]| {
            let [a, b] = [&pair[0], &pair[1]].map(|entry| &entry[..66]);
            compare(a, b) == Ok(Ordering::Less)
        };
        group.check(entries(&moved).windows(2).all(rises), || {
            text(&bucket, old, new)
        });
        seen[usize::from(moved.len() > ENTRY_SIZE)] += 1;
    });
    group.sorts(&seen);
}

/// A bucket by `change_prefix`, key by key: 7 passes the entry over, and 8 is the bucket's. With a
/// new prefix over 64 bytes the bucket is 2, though it may have no key.
fn key_by_key(renaming: &Renaming) -> Result<Vec<u8>, u32> {
    let mut kept = vec![];
    for (place, key) in renaming.keys.iter().enumerate() {
        let (old, new) = (&renaming.prefix, &renaming.new_prefix);
        match answers::key(|dest| change_prefix(key, old, new, dest)) {
            Ok(key) => kept.extend(numbered(place, &record(&key))),
            Err(7) => {}
            Err(number) => return Err(number),
        }
    }
    Ok(kept)
}

pub fn each_key(group: &mut Group, count: usize) {
    let mut seen = [0; 2];
    each_renaming(count, |_, mut renaming| {
        renaming.new_prefix.truncate(64);
        let wanted = key_by_key(&renaming);
        let (old, new) = (&renaming.prefix, &renaming.new_prefix);
        let bucket = bucket_of(&renaming.keys);
        let moved = renamed(&bucket, old, new);
        group.check(moved == wanted, || text(&bucket, old, new));
        seen[usize::from(moved.is_ok())] += 1;
    });
    group.sorts(&seen);
}
