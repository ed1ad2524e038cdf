//! The cuts and a new pivot, in the archive and in the reference.
use crate::asked::Asked;
use crate::call::{call, Call};
use crate::lent::lend;
use crate::tables::calls::{EDGES, KEY, PIVOTS};
use crate::told::count;
use joistdenim::raw;

pub static CALLS: [&Call; 3] = [&SPLIT_LEFT, &SPLIT_RIGHT, &INSERT_PIVOT];

pub const DESTS: &[&str] = &["dest_pivots", "dest_edges"];

/// The bytes of so many pivots, and of one edge fewer.
pub fn written(_: &Asked, pivots: u64) -> [usize; 2] {
    [pivots, pivots - 1].map(|count| 66 * count as usize)
}

pub static SPLIT_LEFT: Call = Call {
    dests: DESTS,
    written,
    ..call(
        "split_left",
        &[PIVOTS, EDGES, KEY],
        |_, lent| lend!(lent, raw::jd_split_left, pivots, edges, key; dest_pivots, dest_edges),
        |asked, [dest_pivots, dest_edges], numbers| {
            let [pivots, edges, key] = asked.all();
            let written = reference::split_left(pivots, edges, key, dest_pivots, dest_edges);
            count(written, numbers)
        },
    )
};

pub static SPLIT_RIGHT: Call = Call {
    dests: DESTS,
    written,
    ..call(
        "split_right",
        &[PIVOTS, EDGES, KEY],
        |_, lent| lend!(lent, raw::jd_split_right, pivots, edges, key; dest_pivots, dest_edges),
        |asked, [dest_pivots, dest_edges], numbers| {
            let [pivots, edges, key] = asked.all();
            let written = reference::split_right(pivots, edges, key, dest_pivots, dest_edges);
            count(written, numbers)
        },
    )
};

pub static INSERT_PIVOT: Call = Call {
    dests: DESTS,
    written,
    ..call(
        "insert_pivot",
        &[PIVOTS, EDGES, KEY],
        |_, lent| lend!(lent, raw::jd_insert_pivot, pivots, edges, key; dest_pivots, dest_edges),
        |asked, [dest_pivots, dest_edges], numbers| {
            let [pivots, edges, key] = asked.all();
            let written = reference::insert_pivot(pivots, edges, key, dest_pivots, dest_edges);
            count(written, numbers)
        },
    )
};
