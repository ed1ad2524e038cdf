//! The calls on single keys, in the archive and in the reference.
use crate::call::{bytes, call, records, Call, Kind};
use crate::lent::lend;
use crate::told::{count, tell};
use joistdenim::raw;
use reference::Refusal;

pub static CALLS: [&Call; 6] = [
    &COMPARE,
    &PIVOT_KEY,
    &ENTRY_KEY,
    &CHANGE_PREFIX,
    &PIVOT_LCP,
    &SHORTEST_UNCOMMON_PREFIX,
];

fn length(key: Result<&[u8], Refusal>) -> Result<usize, Refusal> {
    key.map(<[u8]>::len)
}

pub static COMPARE: Call = call(
    "compare",
    &[("a", Kind::Record), ("b", Kind::Record)],
    |_, lent| lend!(lent, raw::jd_compare, a, b;),
    |asked, _, numbers| {
        let [a, b] = asked.all();
        let order = reference::compare(a, b);
        tell(order.map(|order| order as i64 as u64), numbers)
    },
);

pub static PIVOT_KEY: Call = call(
    "pivot_key",
    &[("record", Kind::Record)],
    |_, lent| lend!(lent, raw::jd_pivot_key, record;),
    |asked, _, numbers| count(length(reference::pivot_key(asked.slices[0])), numbers),
);

pub static ENTRY_KEY: Call = call(
    "entry_key",
    &[("entry", Kind::Entry)],
    |_, lent| lend!(lent, raw::jd_entry_key, entry;),
    |asked, _, numbers| count(length(reference::entry_key(asked.slices[0])), numbers),
);

pub static CHANGE_PREFIX: Call = Call {
    dests: &["dest"],
    written: bytes,
    ..call(
        "change_prefix",
        &[("key", Kind::Key), ("old", Kind::Key), ("new", Kind::Key)],
        |_, lent| lend!(lent, raw::jd_change_prefix, key, old, new; dest),
        |asked, [dest, _], numbers| {
            let [key, old, new] = asked.all();
            count(reference::change_prefix(key, old, new, dest), numbers)
        },
    )
};

pub static PIVOT_LCP: Call = call(
    "pivot_lcp",
    &[("left", Kind::Key), ("right", Kind::Record)],
    |_, lent| lend!(lent, raw::jd_pivot_lcp, left, right;),
    |asked, _, numbers| {
        let [left, right] = asked.all();
        count(length(reference::pivot_lcp(left, right)), numbers)
    },
);

pub static SHORTEST_UNCOMMON_PREFIX: Call = Call {
    dests: &["dest"],
    written: records,
    ..call(
        "shortest_uncommon_prefix",
        &[("prefix", Kind::Key)],
        |_, lent| lend!(lent, raw::jd_shortest_uncommon_prefix, prefix; dest),
        |asked, [dest, _], numbers| {
            let written = reference::shortest_uncommon_prefix(asked.slices[0], dest);
            count(written, numbers)
        },
    )
};
