//! Laws of the archive's own answers: what a join leaves is made of both halves, is cut into them
//! again and translates as they do; and what two cuts at a key leave, joined, is the table where
//! the key was a pivot, and else what the key's insertion leaves.
use super::random::place;
use crate::call::Hex;
use crate::cuts::inputs::{good_table, good_table_of, key_near, Table};
use crate::cuts::records::Records;
use crate::cuts::small::each_good;
use crate::group::Group;
use crate::inputs::Xorshift;
use joistdenim::{bounded_key, split_left, split_right, MAX_PIVOTS};

const SEED: u64 = 20_360_627;

/// What came of the joins, of the cuts before them, and of the keys translated by what they left.
#[derive(Default)]
struct Tally {
    taken: usize,
    too_many: usize,
    at_pivot: usize,
    inside_slot: usize,
    not_cut: usize,
    by_first: usize,
    by_second: usize,
    key_too_long: usize,
    outside: usize,
}

impl Tally {
    fn check(&self, group: &mut Group) {
        group.sorts(&[self.at_pivot, self.inside_slot]);
        group.sorts(&[self.at_pivot + self.inside_slot, self.not_cut]);
        let keys = [self.by_first, self.by_second, self.key_too_long];
        group.sorts(&[&keys[..], &[self.outside]].concat());
    }
}

/// Two halves that meet at this key. Only the count may be too large.
fn joined(
    group: &mut Group,
    tally: &mut Tally,
    [first, second]: [&Records; 2],
    meeting: &[u8],
    keys: &[Vec<u8>],
) -> Result<Records, u32> {
    let joined = first.joined(second);
    let pivots = [&first.pivots[..], &second.pivots[66..]].concat();
    let too_many = (pivots.len() > MAX_PIVOTS * 66).then_some(12);
    let text = |law: &str| format!("{law}: {first:02x?} and {second:02x?}: {joined:02x?}");
    group.check(joined.as_ref().err() == too_many.as_ref(), || {
        text(&format!("wanted {too_many:?}"))
    });
    let Ok(new) = &joined else {
        tally.too_many += 1;
        return joined;
    };
    tally.taken += 1;
    let checked = joistdenim::wf_edges(&new.pivots, &new.edges);
    group.check(checked.is_ok(), || text("well formed"));
    let edges = [&first.edges[..], &second.edges].concat();
    group.check(new.pivots == pivots && new.edges == edges, || text("bytes"));
    for (split, half) in [(split_left as _, first), (split_right as _, second)] {
        let cut = new.cut(split, meeting);
        group.check(cut.as_ref() == Ok(half), || {
            text(&format!("cut {cut:02x?}"))
        });
    }
    for key in keys {
        as_in_its_half(group, tally, new, [first, second], key);
    }
    joined
}

/// A key in the joined range is in the range of exactly one half, and translates as there.
fn as_in_its_half(
    group: &mut Group,
    tally: &mut Tally,
    new: &Records,
    halves: [&Records; 2],
    key: &[u8],
) {
    let bounded = |table: &Records| bounded_key(&table.pivots, key) == Ok(true);
    let (place, wanted) = match halves.map(bounded) {
        [true, false] => (&mut tally.by_first, halves[0].translated(key)),
        [false, true] => (&mut tally.by_second, halves[1].translated(key)),
        [false, false] => (&mut tally.outside, Err(5)),
        [true, true] => return group.fail("both halves have the key"),
    };
    *(match wanted {
        Err(8) => &mut tally.key_too_long,
        _ => place,
    }) += 1;
    let got = new.translated(key);
    let in_range = wanted != Err(5);
    group.check(got == wanted && bounded(new) == in_range, || {
        let key = Hex(key);
        format!("{key} by {new:02x?}: {got:02x?}; by its half of {halves:02x?}: {wanted:02x?}")
    });
}

/// Where both cuts at the key are accepted, what they leave is joined.
fn cuts_joined(group: &mut Group, tally: &mut Tally, table: &Table, key: &[u8], keys: &[Vec<u8>]) {
    let old = Records::of(table);
    let (Ok(left), Ok(right)) = (old.cut(split_left, key), old.cut(split_right, key)) else {
        tally.not_cut += 1;
        return;
    };
    let got = joined(group, tally, [&left, &right], key, keys);
    let wanted = if table.keys.iter().any(|pivot| pivot == key) {
        tally.at_pivot += 1;
        Ok(old)
    } else {
        tally.inside_slot += 1;
        old.inserted(key)
    };
    group.check(got == wanted, || {
        let key = Hex(key);
        format!("cuts at {key}: {left:02x?} and {right:02x?}: {got:02x?}; wanted {wanted:02x?}")
    });
}

/// All small tables that are well formed, with edges at the limit or none; cut at all small keys,
/// and all small keys translated.
pub fn small(group: &mut Group) {
    let mut tally = Tally::default();
    each_good(|table, key, keys| cuts_joined(group, &mut tally, table, key, keys));
    tally.check(group);
}

/// A table cut at keys near its pivots and at one of them; and its halves, where it has any.
fn laws(group: &mut Group, tally: &mut Tally, random: &mut Xorshift, table: &Table) {
    let mut keys: Vec<_> = (0..8).map(|_| key_near(random, table)).collect();
    keys.extend([
        table.keys[0].clone(),
        table.keys[table.keys.len() - 1].clone(),
    ]);
    for key in &keys[..3] {
        cuts_joined(group, tally, table, key, &keys);
    }
    let Some(place) = place(random, table) else {
        return;
    };
    let (whole, meeting) = (Records::of(table), &table.keys[place]);
    let halves = whole.halves(place);
    let joined = joined(group, tally, halves.each_ref(), meeting, &keys);
    let too_many = table.slots() >= MAX_PIVOTS;
    group.check(joined == Ok(whole) || too_many, || {
        format!("halves {halves:02x?}: {joined:02x?}")
    });
    if !too_many {
        cuts_joined(group, tally, table, meeting, &keys);
    }
}

pub fn random(group: &mut Group, count: usize) {
    let mut tally = Tally::default();
    let mut random = Xorshift::new(SEED);
    for _ in 0..count {
        let table = good_table(&mut random);
        laws(group, &mut tally, &mut random, &table);
    }
    tally.check(group);
}

/// The laws of tables of 62 to 66 pivots. Of 64, a key put in and its cuts joined give 12.
pub fn around_most(group: &mut Group, count: usize) {
    let mut tally = Tally::default();
    let mut random = Xorshift::new(SEED);
    for _ in 0..count {
        let pivots = 62 + random.below(5);
        let table = good_table_of(&mut random, pivots);
        laws(group, &mut tally, &mut random, &table);
    }
    group.sorts(&[tally.taken, tally.too_many]);
    tally.check(group);
}
