//! Pairs to make cases of: records of 133 bytes, with a flag, two lengths and two prefixes.
use crate::inputs::{counted, near, random_bytes, small_keys, Xorshift};

pub const PAIR_SIZE: usize = 133;
const OLD_AT: usize = 5;
const NEW_AT: usize = 69;

pub type PairRecord = [u8; PAIR_SIZE];

pub const ABSENT: PairRecord = [0; PAIR_SIZE];

pub fn pair(old: &[u8], new: &[u8]) -> PairRecord {
    let mut record = ABSENT;
    record[0] = 1;
    record[2] = old.len() as u8;
    record[4] = new.len() as u8;
    record[OLD_AT..][..old.len()].copy_from_slice(old);
    record[NEW_AT..][..new.len()].copy_from_slice(new);
    record
}

/// The old prefix, which an absent pair lacks: every key begins with nothing.
pub fn old(record: &PairRecord) -> &[u8] {
    &record[OLD_AT..][..usize::from(record[2])]
}

/// A pair with other bytes wherever nothing is looked at: past the lengths, and all after the
/// flag of an absent pair.
pub fn rubbish(record: &PairRecord) -> PairRecord {
    let mut rubbish = *record;
    match record[0] {
        0 => rubbish[1..].fill(0xFF),
        _ => {
            rubbish[OLD_AT + usize::from(record[2])..NEW_AT].fill(0x41);
            rubbish[NEW_AT + usize::from(record[4])..].fill(0xFF);
        }
    }
    rubbish
}

/// The record with this length field, high byte first, at byte 1 or 3.
pub fn with_length(record: &PairRecord, at: usize, length: u16) -> PairRecord {
    let mut changed = *record;
    changed[at..at + 2].copy_from_slice(&length.to_be_bytes());
    changed
}

pub fn with_flag(record: &PairRecord, flag: u8) -> PairRecord {
    let mut changed = *record;
    changed[0] = flag;
    changed
}

/// The absent pair, and all pairs of prefixes of up to two bytes over 00, 01, FE, FF: 442.
pub fn small_pairs() -> Vec<PairRecord> {
    let prefixes = small_keys(2);
    let mut pairs = vec![ABSENT];
    for old in &prefixes {
        pairs.extend(prefixes.iter().map(|new| pair(old, new)));
    }
    pairs
}

/// Good and bad pairs: some refused with 1, some with 2, some taken.
pub fn usual_pairs() -> Vec<Vec<u8>> {
    let there = pair(&[0x41], &[0x43]);
    let long = counted(64);
    let mut pairs: Vec<Vec<u8>> = [
        ABSENT,
        rubbish(&ABSENT),
        there,
        rubbish(&pair(&[0x41, 0x30], &[0x60, 0x01])),
        pair(&[], &[]),
        pair(&[], &long),
        pair(&long, &[]),
        rubbish(&pair(&long[..2], &long[..63])),
        with_flag(&there, 2),
        with_flag(&ABSENT, 0xFF),
        with_length(&there, 1, 65),
        with_length(&there, 3, 0x0101),
    ]
    .map(Vec::from)
    .to_vec();
    pairs.extend([vec![], there[..132].to_vec(), [&there[..], &[0]].concat()]);
    pairs
}

/// A pair near `base`, or absent; with other bytes where nothing is looked at, and now and then a
/// wrong flag, a wrong length field, one byte changed, or another length.
pub fn random_pair(random: &mut Xorshift, base: &[u8]) -> Vec<u8> {
    let mut old = near(random, base);
    old.truncate(64);
    let len = random.below(65);
    let mut new = match random.below(3) {
        0 => near(random, base),
        1 => vec![0xFF; len],
        _ => random_bytes(random, len),
    };
    new.truncate(64);
    let mut record = pair(&old, &new);
    if random.one_in(6) {
        record = ABSENT;
    }
    if random.one_in(2) {
        record = rubbish(&record);
    }
    spoiled(random, record)
}

fn spoiled(random: &mut Xorshift, mut record: PairRecord) -> Vec<u8> {
    match random.below(24) {
        0 => record[0] = random.next() as u8,
        1 => record = with_length(&record, 1, random.next() as u16),
        2 => record = with_length(&record, 3, 64 + random.below(3) as u16),
        3 => record[random.below(PAIR_SIZE)] = random.next() as u8,
        4 => return record[..random.below(PAIR_SIZE)].to_vec(),
        5 => return [&record[..], &[0]].concat(),
        _ => {}
    }
    record.to_vec()
}
