//! The calls on tables, in the archive and in the reference.
use crate::call::{call, records, Call, Kind};
use crate::lent::lend;
use crate::told::{count, status, yes};
use joistdenim::raw;

pub const PIVOTS: (&str, Kind) = ("pivots", Kind::Pivots);
pub const EDGES: (&str, Kind) = ("edges", Kind::Edges);
pub const KEY: (&str, Kind) = ("key", Kind::Key);

/// The calls whose first argument is pivots.
pub static OF_PIVOTS: [&Call; 11] = [
    &WF_PIVOTS,
    &WF_EDGES,
    &CONTAINS_ALL_KEYS,
    &CONTAINS_RANGE,
    &BOUNDED_KEY,
    &VALID_LEFT_CUT_OFF_KEY,
    &PIVOT_INSERTABLE,
    &GET_KEY,
    &ROUTE,
    &CUTOFF_FOR_LEFT,
    &CUTOFF_FOR_RIGHT,
];

/// The calls of pivots and a key.
pub static OF_KEY: [&Call; 6] = [
    &BOUNDED_KEY,
    &VALID_LEFT_CUT_OFF_KEY,
    &PIVOT_INSERTABLE,
    &ROUTE,
    &CUTOFF_FOR_LEFT,
    &CUTOFF_FOR_RIGHT,
];

// SAFETY of every call here: `Lent` owns the bytes, each slice is good for its length, and no
// two overlap.

pub static WF_PIVOTS: Call = call(
    "wf_pivots",
    &[PIVOTS],
    |_, lent| {
        let [pivots] = lent.slices();
        unsafe { raw::jd_wf_pivots(pivots.at, pivots.len) }
    },
    |asked, _, _| status(reference::wf_pivots(asked.slices[0])),
);

pub static WF_EDGES: Call = call(
    "wf_edges",
    &[PIVOTS, EDGES],
    |_, lent| {
        let [pivots, edges] = lent.slices();
        unsafe { raw::jd_wf_edges(pivots.at, pivots.len, edges.at, edges.len) }
    },
    |asked, _, _| status(reference::wf_edges(asked.slices[0], asked.slices[1])),
);

pub static CONTAINS_ALL_KEYS: Call = call(
    "contains_all_keys",
    &[PIVOTS],
    |_, lent| lend!(lent, raw::jd_contains_all_keys, pivots;),
    |asked, _, numbers| yes(reference::contains_all_keys(asked.slices[0]), numbers),
);

pub static CONTAINS_RANGE: Call = call(
    "contains_range",
    &[PIVOTS, ("left", Kind::Key), ("right", Kind::Record)],
    |_, lent| lend!(lent, raw::jd_contains_range, pivots, left, right;),
    |asked, _, numbers| {
        let [pivots, left, right] = asked.all();
        yes(reference::contains_range(pivots, left, right), numbers)
    },
);

pub static BOUNDED_KEY: Call = call(
    "bounded_key",
    &[PIVOTS, KEY],
    |_, lent| lend!(lent, raw::jd_bounded_key, pivots, key;),
    |asked, _, numbers| {
        yes(
            reference::bounded_key(asked.slices[0], asked.slices[1]),
            numbers,
        )
    },
);

pub static VALID_LEFT_CUT_OFF_KEY: Call = call(
    "valid_left_cut_off_key",
    &[PIVOTS, KEY],
    |_, lent| lend!(lent, raw::jd_valid_left_cut_off_key, pivots, key;),
    |asked, _, numbers| {
        let valid = reference::valid_left_cut_off_key(asked.slices[0], asked.slices[1]);
        yes(valid, numbers)
    },
);

pub static PIVOT_INSERTABLE: Call = Call {
    takes_place: true,
    ..call(
        "pivot_insertable",
        &[PIVOTS, KEY],
        |asked, lent| {
            let [pivots, key] = lent.slices();
            let ([at], place) = (lent.answers(), asked.place);
            unsafe { raw::jd_pivot_insertable(pivots.at, pivots.len, place, key.at, key.len, at) }
        },
        |asked, _, numbers| {
            let (pivots, key) = (asked.slices[0], asked.slices[1]);
            yes(
                reference::pivot_insertable(pivots, asked.place, key),
                numbers,
            )
        },
    )
};

pub static GET_KEY: Call = Call {
    takes_place: true,
    ..call(
        "get_key",
        &[PIVOTS],
        |asked, lent| lend!(lent, raw::jd_get_key, pivots; ; asked.place),
        |asked, _, numbers| {
            let key = reference::get_key(asked.slices[0], asked.place);
            count(key.map(<[u8]>::len), numbers)
        },
    )
};

pub static INIT_PIVOT_TABLE: Call = Call {
    dests: &["dest"],
    written: records,
    ..call(
        "init_pivot_table",
        &[],
        |_, lent| lend!(lent, raw::jd_init_pivot_table, ; dest),
        |_, [dest, _], numbers| count(reference::init_pivot_table(dest), numbers),
    )
};

pub static ROUTE: Call = call(
    "route",
    &[PIVOTS, KEY],
    |_, lent| lend!(lent, raw::jd_route, pivots, key;),
    |asked, _, numbers| count(reference::route(asked.slices[0], asked.slices[1]), numbers),
);

pub static CUTOFF_FOR_LEFT: Call = call(
    "cutoff_for_left",
    &[PIVOTS, KEY],
    |_, lent| lend!(lent, raw::jd_cutoff_for_left, pivots, key;),
    |asked, _, numbers| {
        count(
            reference::cutoff_for_left(asked.slices[0], asked.slices[1]),
            numbers,
        )
    },
);

pub static CUTOFF_FOR_RIGHT: Call = call(
    "cutoff_for_right",
    &[PIVOTS, KEY],
    |_, lent| lend!(lent, raw::jd_cutoff_for_right, pivots, key;),
    |asked, _, numbers| {
        count(
            reference::cutoff_for_right(asked.slices[0], asked.slices[1]),
            numbers,
        )
    },
);
