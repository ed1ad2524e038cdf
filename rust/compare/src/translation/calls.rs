//! The translation of a key and the pair of a key's slot, in the archive and in the reference.
use crate::call::{bytes, call, Call};
use crate::lent::lend;
use crate::pair_inputs::PAIR_SIZE;
use crate::tables::calls::{EDGES, KEY, PIVOTS};
use crate::told::{count, yes};
use joistdenim::raw;

pub static CALLS: [&Call; 2] = [&TRANSLATE_KEY, &TRANSLATE];

pub static TRANSLATE_KEY: Call = Call {
    dests: &["dest"],
    written: bytes,
    ..call(
        "translate_key",
        &[PIVOTS, EDGES, KEY],
        |_, lent| lend!(lent, raw::jd_translate_key, pivots, edges, key; dest),
        |asked, [dest, _], numbers| {
            let [pivots, edges, key] = asked.all();
            count(reference::translate_key(pivots, edges, key, dest), numbers)
        },
    )
};

pub static TRANSLATE: Call = Call {
    dests: &["dest_pair"],
    written: |_, _| [PAIR_SIZE, 0],
    ..call(
        "translate",
        &[PIVOTS, EDGES, KEY],
        |_, lent| lend!(lent, raw::jd_translate, pivots, edges, key; dest_pair),
        |asked, [dest, _], numbers| {
            let [pivots, edges, key] = asked.all();
            yes(reference::translate(pivots, edges, key, dest), numbers)
        },
    )
};
