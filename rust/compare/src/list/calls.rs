//! The list of a table, in the archive and in the reference.
use crate::call::{bytes, call, Call, Kind};
use crate::lent::lend;
use crate::told::count;
use joistdenim::raw;

pub static LIST_TABLE: Call = Call {
    dests: &["dest"],
    written: bytes,
    ..call(
        "list_table",
        &[("input", Kind::Input)],
        |_, lent| lend!(lent, raw::jd_list_table, input; dest),
        |asked, [dest, _], numbers| count(reference::list_table(asked.slices[0], dest), numbers),
    )
};
