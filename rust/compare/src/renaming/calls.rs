//! Pivots and edges under another prefix, in the archive and in the reference.
use crate::call::{call, records, Call, Kind};
use crate::lent::lend;
use crate::tables::calls::{EDGES, PIVOTS};
use crate::told::count;
use joistdenim::raw;

pub static CALLS: [&Call; 3] = [&TRANSLATE_PIVOT_PAIR, &TRANSLATE_PIVOTS, &TRANSLATE_EDGES];

pub const PREFIX: (&str, Kind) = ("prefix", Kind::Key);
pub const NEW_PREFIX: (&str, Kind) = ("new_prefix", Kind::Key);

pub static TRANSLATE_PIVOT_PAIR: Call = Call {
    dests: &["dest"],
    written: records,
    ..call(
        "translate_pivot_pair",
        &[
            ("left", Kind::Key),
            ("right", Kind::Record),
            PREFIX,
            NEW_PREFIX,
        ],
        |_, lent| lend!(lent, raw::jd_translate_pivot_pair, left, right, prefix, new_prefix; dest),
        |asked, [dest, _], numbers| {
            let [left, right, prefix, new_prefix] = asked.all();
            let written = reference::translate_pivot_pair(left, right, prefix, new_prefix, dest);
            count(written, numbers)
        },
    )
};

pub static TRANSLATE_PIVOTS: Call = Call {
    dests: &["dest"],
    written: records,
    ..call(
        "translate_pivots",
        &[PIVOTS, PREFIX, NEW_PREFIX, ("end", Kind::Record)],
        |_, lent| lend!(lent, raw::jd_translate_pivots, pivots, prefix, new_prefix, end; dest),
        |asked, [dest, _], numbers| {
            let [pivots, prefix, new_prefix, end] = asked.all();
            let written = reference::translate_pivots(pivots, prefix, new_prefix, end, dest);
            count(written, numbers)
        },
    )
};

pub static TRANSLATE_EDGES: Call = Call {
    dests: &["dest"],
    written: records,
    ..call(
        "translate_edges",
        &[PIVOTS, EDGES],
        |_, lent| lend!(lent, raw::jd_translate_edges, pivots, edges; dest),
        |asked, [dest, _], numbers| {
            let [pivots, edges] = asked.all();
            count(reference::translate_edges(pivots, edges, dest), numbers)
        },
    )
};
