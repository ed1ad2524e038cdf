//! The calls on pairs, in the archive and in the reference.
use crate::call::{bytes, call, Call, Kind};
use crate::lent::lend;
use crate::pair_inputs::PAIR_SIZE;
use crate::tables::calls::KEY;
use crate::told::{count, yes};
use joistdenim::raw;

pub static CALLS: [&Call; 3] = [&REVERSE_PAIR, &APPLY_PAIR, &COMPOSE_PAIRS];

pub static REVERSE_PAIR: Call = Call {
    dests: &["dest_pair"],
    written: |_, _| [PAIR_SIZE, 0],
    ..call(
        "reverse_pair",
        &[("pair", Kind::Pair)],
        |_, lent| lend!(lent, raw::jd_reverse_pair, pair; dest_pair),
        |asked, [dest, _], numbers| yes(reference::reverse_pair(asked.slices[0], dest), numbers),
    )
};

pub static APPLY_PAIR: Call = Call {
    dests: &["dest"],
    written: bytes,
    ..call(
        "apply_pair",
        &[("pair", Kind::Pair), KEY],
        |_, lent| lend!(lent, raw::jd_apply_pair, pair, key; dest),
        |asked, [dest, _], numbers| {
            let [pair, key] = asked.all();
            count(reference::apply_pair(pair, key, dest), numbers)
        },
    )
};

pub static COMPOSE_PAIRS: Call = Call {
    dests: &["dest_pair"],
    written: |_, _| [PAIR_SIZE, 0],
    ..call(
        "compose_pairs",
        &[("pair_a", Kind::Pair), ("pair_b", Kind::Pair)],
        |_, lent| lend!(lent, raw::jd_compose_pairs, pair_a, pair_b; dest_pair),
        |asked, [dest, _], numbers| {
            let [a, b] = asked.all();
            yes(reference::compose_pairs(a, b, dest), numbers)
        },
    )
};
