//! The calls on the index beside a bucket, in the archive and in the reference.
use super::inputs::PLACE_SIZE;
use crate::asked::Asked;
use crate::call::{call, Call, Kind};
use crate::inputs::ENTRY_SIZE;
use crate::lent::lend;
use crate::renaming::calls::{NEW_PREFIX, PREFIX};
use crate::tables::calls::{KEY, PIVOTS};
use crate::told::count;
use joistdenim::raw;

const BUCKET: (&str, Kind) = ("bucket", Kind::Bucket);
const INDEX: (&str, Kind) = ("index", Kind::Index);
const DESTS: &[&str] = &["dest_bucket", "dest_index"];

pub static CALLS: [&Call; 6] = [
    &BUILD_INDEX,
    &CHECK_INDEX,
    &SLOT_ENTRIES,
    &CUT_INDEX_LEFT,
    &CUT_INDEX_RIGHT,
    &TRANSLATE_INDEX,
];

pub static CUTS: [&Call; 2] = [&CUT_INDEX_LEFT, &CUT_INDEX_RIGHT];

fn pivots(asked: &Asked) -> usize {
    asked.slices[0].len() / 66
}

/// The bytes of so many entries, and of so many places.
fn both(entries: u64, places: usize) -> [usize; 2] {
    [entries as usize * ENTRY_SIZE, places * PLACE_SIZE]
}

pub static BUILD_INDEX: Call = Call {
    dests: &["dest"],
    written: |asked, _| [pivots(asked) * PLACE_SIZE, 0],
    ..call(
        "build_index",
        &[PIVOTS, BUCKET],
        |_, lent| lend!(lent, raw::jd_build_index, pivots, bucket; dest),
        |asked, [dest, _], numbers| {
            let [pivots, bucket] = asked.all();
            count(reference::build_index(pivots, bucket, dest), numbers)
        },
    )
};

pub static CHECK_INDEX: Call = call(
    "check_index",
    &[PIVOTS, BUCKET, INDEX],
    |_, lent| lend!(lent, raw::jd_check_index, pivots, bucket, index;),
    |asked, _, numbers| {
        let [pivots, bucket, index] = asked.all();
        count(reference::check_index(pivots, bucket, index), numbers)
    },
);

/// The place is the slot.
pub static SLOT_ENTRIES: Call = Call {
    takes_place: true,
    ..call(
        "slot_entries",
        &[PIVOTS, BUCKET, INDEX],
        |asked, lent| lend!(lent, raw::jd_slot_entries, pivots, bucket, index; ; asked.place),
        |asked, _, numbers| {
            let [pivots, bucket, index] = asked.all();
            let part = reference::slot_entries(pivots, bucket, index, asked.place);
            count(part.map(|part| part.len() / ENTRY_SIZE), numbers)
        },
    )
};

pub static CUT_INDEX_LEFT: Call = Call {
    dests: DESTS,
    written: |asked, total| {
        let [pivots, _, _, key] = asked.all();
        let slot = reference::cutoff_for_left(pivots, key);
        both(total, slot.map_or(0, |slot| slot + 2))
    },
    ..call(
        "cut_index_left",
        &[PIVOTS, BUCKET, INDEX, KEY],
        |_, lent| {
            lend!(
                lent, raw::jd_cut_index_left, pivots, bucket, index, key;
                dest_bucket, dest_index
            )
        },
        |asked, [dest_bucket, dest_index], numbers| {
            let [pivots, bucket, index, key] = asked.all();
            let total =
                reference::cut_index_left(pivots, bucket, index, key, dest_bucket, dest_index);
            count(total, numbers)
        },
    )
};

pub static CUT_INDEX_RIGHT: Call = Call {
    dests: DESTS,
    written: |asked, total| {
        let [bytes, _, _, key] = asked.all();
        let slot = reference::route(bytes, key);
        both(total, slot.map_or(0, |slot| pivots(asked) - slot))
    },
    ..call(
        "cut_index_right",
        &[PIVOTS, BUCKET, INDEX, KEY],
        |_, lent| {
            lend!(
                lent, raw::jd_cut_index_right, pivots, bucket, index, key;
                dest_bucket, dest_index
            )
        },
        |asked, [dest_bucket, dest_index], numbers| {
            let [pivots, bucket, index, key] = asked.all();
            let total =
                reference::cut_index_right(pivots, bucket, index, key, dest_bucket, dest_index);
            count(total, numbers)
        },
    )
};

pub static TRANSLATE_INDEX: Call = Call {
    dests: DESTS,
    written: |asked, total| both(total, pivots(asked)),
    ..call(
        "translate_index",
        &[PIVOTS, BUCKET, INDEX, PREFIX, NEW_PREFIX],
        |_, lent| {
            lend!(
                lent, raw::jd_translate_index, pivots, bucket, index, prefix, new_prefix;
                dest_bucket, dest_index
            )
        },
        |asked, [dest_bucket, dest_index], numbers| {
            let [pivots, bucket, index, old, new] = asked.all();
            let total = reference::translate_index(
                pivots,
                bucket,
                index,
                old,
                new,
                dest_bucket,
                dest_index,
            );
            count(total, numbers)
        },
    )
};
