//! Two tables put together, in the archive and in the reference.
use crate::call::{call, Call, Kind};
use crate::cuts::calls::{written, DESTS};
use crate::cuts::records::Records;
use crate::lent::lend;
use crate::told::count;
use joistdenim::raw;

pub static JOIN: Call = Call {
    dests: DESTS,
    written,
    ..call(
        "join",
        &[
            ("first_pivots", Kind::Pivots),
            ("first_edges", Kind::Edges),
            ("second_pivots", Kind::Second),
            ("second_edges", Kind::Edges),
        ],
        |_, lent| lend!(lent, raw::jd_join, p1, e1, p2, e2; dest_pivots, dest_edges),
        |asked, [dest_pivots, dest_edges], numbers| {
            let [p1, e1, p2, e2] = asked.all();
            count(
                reference::join(p1, e1, p2, e2, dest_pivots, dest_edges),
                numbers,
            )
        },
    )
};

/// Two tables as they are lent.
pub fn slices([first, second]: [&Records; 2]) -> [&[u8]; 4] {
    [&first.pivots, &first.edges, &second.pivots, &second.edges]
}
