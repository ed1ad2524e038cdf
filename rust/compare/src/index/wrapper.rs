//! The safe wrapper's calls on an index against the reference.
use super::calls::{BUILD_INDEX, CUT_INDEX_LEFT, CUT_INDEX_RIGHT, TRANSLATE_INDEX};
use super::inputs::{usual_indexes, wrong_indexes};
use super::random::{question, Question};
use crate::bucket_inputs::usual_buckets;
use crate::cuts::inputs::good_table;
use crate::dests::dests_around;
use crate::group::Group;
use crate::inputs::Xorshift;
use crate::table_inputs::usual_pivots;
use crate::wrapper::{into_both, same, two_into_both};

const SEED: u64 = 20_390_627;

/// The calls that write nothing: the total, and each slot's part.
fn parts(group: &mut Group, [p, b, i]: [&[u8]; 3]) {
    let total = joistdenim::check_index(p, b, i);
    let wanted = reference::check_index(p, b, i);
    same(group, "check_index", &[p, b, i], total, wanted);
    for slot in (0..=i.len() as u64 / 2).chain([1 << 32, u64::MAX]) {
        let part = joistdenim::slot_entries(p, b, i, slot);
        let wanted = reference::slot_entries(p, b, i, slot);
        same(group, "slot_entries", &[p, b, i], part, wanted);
    }
}

fn each_call(group: &mut Group, asked: &Question) {
    let [p, b, i] = asked.x.slices();
    let (k, old, new) = (&asked.key, &asked.prefix, &asked.new_prefix);
    parts(group, [p, b, i]);
    for [dest, _] in dests_around(&BUILD_INDEX, &[p, b]) {
        into_both!(group, dest, build_index(p, b));
    }
    for dests in dests_around(&CUT_INDEX_LEFT, &[p, b, i, k]) {
        two_into_both!(group, dests, cut_index_left(p, b, i, k));
    }
    for dests in dests_around(&CUT_INDEX_RIGHT, &[p, b, i, k]) {
        two_into_both!(group, dests, cut_index_right(p, b, i, k));
    }
    for dests in dests_around(&TRANSLATE_INDEX, &[p, b, i, old, new]) {
        two_into_both!(group, dests, translate_index(p, b, i, old, new));
    }
}

pub fn indexes(group: &mut Group) {
    for p in &usual_pivots() {
        for b in &usual_buckets() {
            for i in &usual_indexes() {
                parts(group, [p, b, i]);
            }
        }
    }
    let mut random = Xorshift::new(SEED);
    for _ in 0..1000 {
        let table = good_table(&mut random);
        let mut asked = question(&mut random, &table, 12);
        each_call(group, &asked);
        let wrong = wrong_indexes(&asked.x.index);
        asked.x.index = wrong[random.below(wrong.len())].clone();
        each_call(group, &asked);
    }
}
