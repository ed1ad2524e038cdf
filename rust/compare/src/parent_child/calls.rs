//! The question of parent and child, in the archive and in the reference.
use crate::call::{call, Call, Kind};
use crate::lent::lend;
use crate::told::yes;
use joistdenim::raw;

pub static PARENT_KEYS_IN_CHILD_RANGE: Call = Call {
    takes_place: true,
    ..call(
        "parent_keys_in_child_range",
        &[
            ("parent_pivots", Kind::Pivots),
            ("parent_edges", Kind::Edges),
            ("child_pivots", Kind::Child),
        ],
        |asked, lent| lend!(lent, raw::jd_parent_keys_in_child_range, p, e, c; ; asked.place),
        |asked, _, numbers| {
            let [p, e, c] = asked.all();
            let slot = asked.place;
            yes(
                reference::parent_keys_in_child_range(p, e, c, slot),
                numbers,
            )
        },
    )
};
