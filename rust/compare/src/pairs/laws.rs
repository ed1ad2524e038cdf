//! Laws between the answers of the archive's calls on pairs.
use crate::answers;
use crate::call::Hex;
use crate::cuts::inputs::{good_table, key_near, keys_after, Table};
use crate::cuts::small::{each_edges, tables, SHARED};
use crate::group::Group;
use crate::inputs::{random_bytes, Xorshift};
use crate::pair_inputs::{self, old, pair, rubbish, PairRecord, ABSENT};

const SEED: u64 = 20_310_627;

fn applied(pair: &[u8], key: &[u8]) -> Result<Vec<u8>, u32> {
    answers::key(|dest| joistdenim::apply_pair(pair, key, dest))
}

/// Reversed twice, a pair is itself, with zeros wherever nothing is looked at.
pub fn reversed_twice(group: &mut Group) {
    let reversed = |pair: &[u8]| answers::pair(|dest| joistdenim::reverse_pair(pair, dest));
    for pair in pair_inputs::small_pairs() {
        for lent in [pair, rubbish(&pair)] {
            let twice = reversed(&lent).and_then(|once| reversed(&once));
            group.check(twice == Ok(pair), || format!("{}: {twice:?}", Hex(&lent)));
        }
    }
}

/// What came of keys in tables: translated, left as they were, too long, out of range.
#[derive(Default)]
struct Keys([usize; 4]);

/// The pair of a key's slot, applied to the key, is the translated key, and where one is refused
/// so is the other: "TranslateKey" is "ApplyPrefixSet" of "Translate".
fn pair_of_key(group: &mut Group, keys: &mut Keys, table: &Table, key: &[u8]) {
    let (p, e) = (&table.pivots, &table.edges);
    let pair = answers::pair(|dest| joistdenim::translate(p, e, key, dest));
    let translated = answers::key(|dest| joistdenim::translate_key(p, e, key, dest));
    let applied = pair.and_then(|pair| applied(&pair, key));
    group.check(applied == translated, || {
        let (p, e, key) = (Hex(p), Hex(e), Hex(key));
        format!("{key} by {p}, {e}: applied {applied:02x?}, translated {translated:02x?}")
    });
    keys.0[match (pair, applied) {
        (Err(_), _) => 3,
        (Ok(_), Err(_)) => 2,
        (Ok(pair), _) => usize::from(pair == ABSENT),
    }] += 1;
}

pub fn small_tables(group: &mut Group) {
    let mut seen = Keys::default();
    let [_, shared] = SHARED;
    let keys = keys_after(shared);
    for mut table in tables(shared) {
        each_edges(&mut table, &[&[], &[0x44; 63], &[0x45; 64]], |table| {
            for key in &keys {
                pair_of_key(group, &mut seen, table, key);
            }
        });
    }
    group.sorts(&seen.0);
}

pub fn random_tables(group: &mut Group, count: usize) {
    let mut seen = Keys::default();
    let mut random = Xorshift::new(SEED);
    for _ in 0..count {
        let table = good_table(&mut random);
        for _ in 0..6 {
            let key = key_near(&mut random, &table);
            pair_of_key(group, &mut seen, &table, &key);
        }
    }
    group.sorts(&seen.0);
}

/// What came of composing: a pair, 7, 8.
#[derive(Default)]
struct Composed([usize; 3]);

/// "The result takes b's image of k to a's image of k"; where a is absent its image is k, and so
/// for b. Refused 8 means that one of the images passes 64 bytes. The key begins with both old
/// prefixes wherever there is such a key at all.
fn composing(group: &mut Group, seen: &mut Composed, [a, b]: [&PairRecord; 2], key: &[u8]) {
    let pair = answers::pair(|dest| joistdenim::compose_pairs(a, b, dest));
    let (from, to) = (applied(b, key), applied(a, key));
    let holds = match pair {
        Ok(pair) => match &from {
            Ok(from) => applied(&pair, from) == to,
            Err(number) => *number == 8,
        },
        Err(7) => from == Err(7) || to == Err(7),
        Err(number) => number == 8 && (from == Err(8) || to == Err(8)),
    };
    group.check(holds, || {
        let (a, b, key) = (Hex(a), Hex(b), Hex(key));
        format!("{a} with {b}, key {key}: {pair:02x?}; {from:02x?} to {to:02x?}")
    });
    seen.0[match pair {
        Ok(_) => 0,
        Err(7) => 1,
        Err(_) => 2,
    }] += 1;
}

/// The longer old prefix of two pairs, followed by a few bytes.
fn key_of_both(a: &PairRecord, b: &PairRecord, more: &[u8]) -> Vec<u8> {
    let longer = std::cmp::max_by_key(old(a), old(b), |old| old.len());
    [longer, more].concat()
}

pub fn small_pairs(group: &mut Group) {
    let mut seen = Composed::default();
    let pairs = pair_inputs::small_pairs();
    for a in &pairs {
        for b in &pairs {
            for more in [&[][..], &[0x00], &[0xFF, 0x01]] {
                let key = key_of_both(a, b, more);
                composing(group, &mut seen, [a, b], &key);
            }
        }
    }
    group.sorts(&seen.0[..2]);
}

/// Pairs whose old prefixes come from one key, with new prefixes of all lengths.
pub fn random_pairs(group: &mut Group, count: usize) {
    let mut seen = Composed::default();
    let mut random = Xorshift::new(SEED);
    for _ in 0..count {
        let base = random_bytes(&mut random, 65);
        let mut one = || {
            let mut old = base[..random.below(40)].to_vec();
            if random.one_in(8) {
                old.push(!base[old.len()]);
            }
            let len = 64 - random.below(65).min(random.below(65));
            let new = random_bytes(&mut random, len);
            pair(&old, &new)
        };
        let (a, b) = (one(), one());
        let more = random.below(24);
        let more = random_bytes(&mut random, more);
        let key = key_of_both(&a, &b, &more);
        composing(group, &mut seen, [&a, &b], &key);
    }
    group.sorts(&seen.0);
}
