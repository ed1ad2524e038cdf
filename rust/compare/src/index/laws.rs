//! Laws of the archive's own answers: what an index says of table and bucket, what the cuts at a
//! key hold together, and what becomes of each slot under another prefix.
use super::inputs::{wrong_indexes, PLACE_SIZE};
use super::random::{question, Question};
use crate::answers;
use crate::call::Hex;
use crate::cuts::inputs::{good_table, good_table_of, key_near};
use crate::cuts::records::Records;
use crate::group::Group;
use crate::inputs::{Xorshift, ENTRY_SIZE, MAX_ENTRIES};
use crate::table_inputs::absent;
use joistdenim::{
    build_index, check_index, cut_index_left, cut_index_right, entry_key, route, slot_entries,
    split_left, split_right, translate_bucket, translate_index, Refusal,
};

const SEED: u64 = 20_400_627;

type Cut = fn(&[u8], &[u8], &[u8], &[u8], &mut [u8], &mut [u8]) -> Result<usize, Refusal>;
type Split = fn(&[u8], &[u8], &[u8], &mut [u8], &mut [u8]) -> Result<usize, Refusal>;
type Drawers = (Vec<u8>, Vec<u8>);

/// The index that the archive builds, or the number of its refusal.
fn built(pivots: &[u8], bucket: &[u8]) -> Result<Vec<u8>, u32> {
    let mut index = vec![7; pivots.len() / 66 * PLACE_SIZE];
    let total = build_index(pivots, bucket, &mut index).map_err(Refusal::number)?;
    assert_eq!(total, bucket.len() / ENTRY_SIZE, "the total");
    Ok(index)
}

/// What a call leaves in two destinations: the entries that it counts, and so many places.
fn drawers(
    places: usize,
    call: impl FnOnce(&mut [u8], &mut [u8]) -> Result<usize, Refusal>,
) -> Result<Drawers, u32> {
    let (mut bucket, mut index) = (vec![7; MAX_ENTRIES * ENTRY_SIZE], vec![7; 2 * 64]);
    let total = call(&mut bucket, &mut index).map_err(Refusal::number)?;
    bucket.truncate(total * ENTRY_SIZE);
    index.truncate(places * PLACE_SIZE);
    Ok((bucket, index))
}

fn places(index: &[u8]) -> Vec<usize> {
    let places = index.as_chunks().0.iter();
    places
        .map(|place| usize::from(u16::from_be_bytes(*place)))
        .collect()
}

fn text(law: &str, asked: &Question) -> String {
    let [pivots, bucket, index] = asked.x.slices().map(|slice| Hex(slice).to_string());
    let key = Hex(&asked.key);
    let (old, new) = (Hex(&asked.prefix), Hex(&asked.new_prefix));
    format!("{law}: {pivots}, {bucket}, {index}; at {key}; {old} to {new}")
}

/// Good questions of few pivots and entries, and some of many, with the index that the archive
/// builds. The body tells of which of two sorts each is.
fn each(group: &mut Group, count: usize, body: impl Fn(&mut Group, &Question) -> usize) {
    let mut random = Xorshift::new(SEED);
    let mut sorts = [0; 2];
    for i in 0..count {
        let (table, entries) = if i % 32 == 0 {
            let pivots = 2 + random.below(63);
            (good_table_of(&mut random, pivots), MAX_ENTRIES)
        } else {
            (good_table(&mut random), 10)
        };
        let mut asked = question(&mut random, &table, entries);
        let index = built(&asked.x.pivots, &asked.x.bucket);
        asked.x.index = index.expect("table and bucket are good");
        sorts[body(group, &asked)] += 1;
        if i % 2 == 0 {
            let key = key_near(&mut random, &table);
            sorts[body(group, &Question { key, ..asked })] += 1;
        }
    }
    group.sorts(&sorts);
}

/// The places begin with 0, rise to the total and never fall, so that a slot without entries has
/// the next one's; and each slot has exactly the entries that are routed to it.
pub fn places_and_slots(group: &mut Group, count: usize) {
    each(group, count, |group, asked| {
        let [pivots, bucket, index] = asked.x.slices();
        let places = places(index);
        let total = bucket.len() / ENTRY_SIZE;
        let ends = places.first() == Some(&0) && places.last() == Some(&total);
        let rising = ends && places.is_sorted();
        group.check(rising, || text("places", asked));
        let mut seen = vec![];
        for slot in 0..places.len() - 1 {
            let part = slot_entries(pivots, bucket, index, slot as u64).unwrap_or(&[]);
            for entry in part.chunks(ENTRY_SIZE) {
                let routed = entry_key(entry).and_then(|key| route(pivots, key));
                group.check(routed == Ok(slot), || text("slot", asked));
            }
            seen.extend_from_slice(part);
        }
        group.check(seen == bucket, || text("all slots", asked));
        usize::from(places.windows(2).any(|two| two[0] == two[1]))
    });
}

/// The index is accepted exactly where it is the one that is built.
pub fn only_the_built(group: &mut Group, count: usize) {
    each(group, count, |group, asked| {
        let [pivots, bucket, right] = asked.x.slices();
        let total = bucket.len() / ENTRY_SIZE;
        let checked = check_index(pivots, bucket, right);
        group.check(checked == Ok(total), || text("right index", asked));
        for wrong in wrong_indexes(right).iter().take(100) {
            let checked = check_index(pivots, bucket, wrong);
            let wanted = Err(Refusal::WrongIndex);
            group.check(checked == wanted, || text("wrong index", asked));
        }
        usize::from(total > 1)
    });
}

/// One side: what the cut leaves has the index that is built for the cut table, whose cut takes
/// the same keys.
fn side(group: &mut Group, asked: &Question, (cut, split): (Cut, Split)) -> Result<Vec<u8>, u32> {
    let [pivots, bucket, index] = asked.x.slices();
    let whole = Records {
        pivots: pivots.to_vec(),
        edges: absent(pivots.len() / 66 - 1),
    };
    let table = whole.cut(split, &asked.key);
    let count = table.as_ref().map_or(0, |table| table.pivots.len() / 66);
    let left = drawers(count, |b, i| cut(pivots, bucket, index, &asked.key, b, i));
    let wanted = match (&table, &left) {
        (Ok(table), Ok((kept, _))) => built(&table.pivots, kept),
        (Err(number), _) => Err(*number),
        (Ok(_), Err(_)) => Ok(vec![]),
    };
    let got = left.as_ref().map(|(_, index)| index.clone());
    group.check(got.map_err(|number| *number) == wanted, || {
        text("cut", asked)
    });
    left.map(|(kept, _)| kept)
}

/// "The left and right cut at one key, where both are accepted, together hold each entry exactly
/// once", in their order.
pub fn cuts(group: &mut Group, count: usize) {
    each(group, count, |group, asked| {
        let left = side(group, asked, (cut_index_left, split_left));
        let right = side(group, asked, (cut_index_right, split_right));
        let (Ok(left), Ok(right)) = (left, right) else {
            return 0;
        };
        let whole = [left, right].concat();
        group.check(whole == asked.x.bucket, || text("both cuts", asked));
        1
    });
}

/// The bucket is what `translate_bucket` makes of the whole one, and the places are the sums of
/// what it keeps of each slot's part, or it refuses as that does.
pub fn drawers_in_turn(group: &mut Group, count: usize) {
    each(group, count, |group, asked| {
        let [pivots, bucket, index] = asked.x.slices();
        let (old, new) = (&asked.prefix, &asked.new_prefix);
        let renamed =
            |bucket: &[u8]| answers::entries(|dest| translate_bucket(bucket, old, new, dest));
        let count = pivots.len() / 66;
        let moved = drawers(count, |b, i| {
            translate_index(pivots, bucket, index, old, new, b, i)
        });
        let wanted = renamed(bucket);
        let (kept, moved_index) = match moved {
            Ok(moved) => moved,
            Err(number) => {
                group.check(wanted == Err(number), || text("refusal", asked));
                return 0;
            }
        };
        group.check(wanted.as_ref() == Ok(&kept), || text("bucket", asked));
        let mut sums = vec![0];
        for slot in 0..count as u64 - 1 {
            let part = slot_entries(pivots, bucket, index, slot).unwrap_or(&[]);
            let kept = renamed(part).map_or(0, |kept| kept.len() / ENTRY_SIZE);
            sums.push(sums[sums.len() - 1] + kept);
        }
        group.check(places(&moved_index) == sums, || text("places kept", asked));
        1
    });
}
