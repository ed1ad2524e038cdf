//! The safe wrapper's calls on pairs, and its pairs as values, against the reference.
use super::calls::{APPLY_PAIR, COMPOSE_PAIRS, REVERSE_PAIR};
use crate::dests::dests_around;
use crate::group::Group;
use crate::inputs::counted;
use crate::pair_inputs::{pair, rubbish, small_pairs, usual_pairs, ABSENT, PAIR_SIZE};
use crate::wrapper::{into, into_both, same};
use joistdenim::Pair;

pub fn records(group: &mut Group) {
    let keys = [vec![], vec![0x41], vec![0x41, 0x30, 0x07], counted(64)];
    for a in &usual_pairs() {
        for [dest, _] in dests_around(&REVERSE_PAIR, &[a]) {
            into_both!(group, dest, reverse_pair(a));
        }
        for b in &usual_pairs() {
            for [dest, _] in dests_around(&COMPOSE_PAIRS, &[a, b]) {
                into_both!(group, dest, compose_pairs(a, b));
            }
        }
        for key in &keys {
            for [dest, _] in dests_around(&APPLY_PAIR, &[a, key]) {
                into_both!(group, dest, apply_pair(a, key));
            }
        }
    }
}

/// The record that the reference leaves, or its refusal.
fn left(
    call: impl Fn(&mut [u8]) -> Result<bool, reference::Refusal>,
) -> Result<[u8; PAIR_SIZE], reference::Refusal> {
    let mut record = [7; PAIR_SIZE];
    call(&mut record)?;
    Ok(record)
}

pub fn values(group: &mut Group) {
    for record in &usual_pairs() {
        let pair = Pair::try_from(&record[..]).map(<[u8; PAIR_SIZE]>::from);
        let wanted = left(|dest| reference::compose_pairs(record, &ABSENT, dest));
        same(group, "Pair::try_from", &[record], pair, wanted);
    }
    for record in small_pairs().iter().step_by(3) {
        let value = Pair::try_from(&rubbish(record)[..]).expect("a good pair");
        let (old, new) = value.prefixes().unwrap_or_default();
        let again = Pair::new(old, new).expect("short prefixes");
        let same_bytes = value.as_bytes() == record;
        let same_pair = record[0] == 0 || (again == value && pair(old, new) == *record);
        group.check(same_bytes && same_pair, || format!("{value:?}"));
        methods(group, value);
    }
    let long = [0; 65];
    for (old, new) in [(65, 0), (0, 65), (64, 64)] {
        let refused = Pair::new(&long[..old], &long[..new]).is_err();
        let wanted = old > 64 || new > 64;
        group.check(refused == wanted, || {
            format!("Pair::new of {old} and {new}")
        });
    }
}

fn methods(group: &mut Group, value: Pair) {
    let record = value.as_bytes();
    let reversed = Ok(*value.reversed().as_bytes());
    let wanted = left(|dest| reference::reverse_pair(record, dest));
    same(group, "Pair::reversed", &[record], reversed, wanted);
    for other in small_pairs().iter().step_by(7) {
        let other = Pair::try_from(&other[..]).expect("a good pair");
        let b = other.as_bytes();
        let composed = value.compose(&other).map(<[u8; PAIR_SIZE]>::from);
        let wanted = left(|dest| reference::compose_pairs(record, b, dest));
        same(group, "Pair::compose", &[record, b], composed, wanted);
    }
    for key in [&[][..], &[0x00], &[0x01, 0xFE], &[0xFF; 65]] {
        let got = into(4, |dest| value.apply(key, dest));
        let wanted = into(4, |dest| reference::apply_pair(record, key, dest));
        same(group, "Pair::apply", &[record, key], got.0, wanted.0);
        same(
            group,
            "Pair::apply",
            &[record, key],
            Ok(got.1),
            Ok(wanted.1),
        );
    }
}
