//! The calls on buckets.
use crate::case::Case;
use crate::inputs::{key_record, Xorshift};
use crate::lent::{Slices, ROOM};
use crate::sides::case;
use joistdenim::{ENTRY_SIZE, MAX_ENTRIES, NUMBER_SIZE};

pub const KEYS: [usize; 3] = [8, 32, 60];
/// The question is asked with keys of one length: it reads what the call reads.
pub const ASKED_KEYS: [usize; 1] = [32];
/// How many entries of a full bucket are kept: all, half and none.
pub const KEPT: [usize; 3] = [MAX_ENTRIES, MAX_ENTRIES / 2, 0];
/// Few, as of the large tables.
const BUCKETS: usize = 4;

/// A full bucket, a prefix of half a key, and another one as long. So many entries begin with the
/// prefix, in random places; the others differ from it in one byte.
fn renamed(random: &mut Xorshift, key: usize, mut kept: usize) -> Slices<3> {
    let prefix = random.bytes(key / 2);
    let mut bucket = vec![];
    for left in (1..=MAX_ENTRIES).rev() {
        let mut key = [&prefix[..], &random.bytes(key - prefix.len())].concat();
        if random.below(left) < kept {
            kept -= 1;
        } else {
            key[random.below(prefix.len())] ^= 1;
        }
        bucket.extend_from_slice(&key_record(&key));
        bucket.extend(random.bytes(NUMBER_SIZE));
    }
    let new_prefix = random.bytes(prefix.len());
    [bucket.into(), prefix.into(), new_prefix.into()]
}

fn cases_of(random: &mut Xorshift, size: (usize, usize)) -> Vec<Case> {
    let buckets: Vec<Slices<3>> = (0..BUCKETS)
        .map(|_| renamed(random, size.0, size.1))
        .collect();
    let mut cases = vec![case!(
        size,
        &buckets,
        translate_bucket(b, old, new; dest),
        |count| count,
        |count| [count * ENTRY_SIZE]
    )];
    if ASKED_KEYS.contains(&size.0) {
        cases.push(case!(
            size,
            &buckets,
            translate_bucket_will_fit(b, old, new; ; ROOM as u64),
            |yes| usize::from(yes),
            |_| []
        ));
    }
    cases
}

pub fn cases(random: &mut Xorshift) -> Vec<Case> {
    let mut cases = vec![];
    for key in KEYS {
        for kept in KEPT {
            cases.extend(cases_of(random, (key, kept)));
        }
    }
    cases
}
