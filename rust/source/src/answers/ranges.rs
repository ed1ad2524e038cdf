//! Of a range, a prefix, and pivots that are renamed.
use super::{key_room, nothing_there, pair_room, prefixes, records_room, Answer};
use crate::inputs::Inputs;
use crate::words;
use joistdenim::{Refusal, RECORD_SIZE};

pub fn element_is_key(inputs: &Inputs) -> Answer {
    match joistdenim::pivot_key(&words::record(inputs.word("right"))) {
        Ok(_) => Ok(words::of_bool(true)),
        Err(Refusal::Malformed) => Ok(words::of_bool(false)),
        Err(refusal) => Err(refusal),
    }
}

/// Of max the source says 0, and the call refuses it: it has no key.
pub fn pivot_size(inputs: &Inputs) -> Answer {
    let record = words::record(inputs.word("right"));
    match joistdenim::pivot_key(&record) {
        Err(Refusal::Malformed) if inputs.word("right") == "max" => Ok("0".to_string()),
        length => length.map(|key| key.len().to_string()),
    }
}

fn range_prefix(inputs: &Inputs, right: &str) -> Answer {
    let left = inputs.key("left");
    joistdenim::pivot_lcp(&left, &words::record(right)).map(words::of_key)
}

pub fn pivot_lcp(inputs: &Inputs) -> Answer {
    range_prefix(inputs, inputs.word("right"))
}

pub fn lcpright(inputs: &Inputs) -> Answer {
    range_prefix(inputs, "max")
}

pub fn contains_range(inputs: &Inputs) -> Answer {
    let (pivots, right) = (inputs.records("pt"), inputs.records("right"));
    joistdenim::contains_range(&pivots, &inputs.key("left"), &right).map(words::of_bool)
}

/// Whether the table of one slot has the key.
pub fn in_between(inputs: &Inputs) -> Answer {
    let pivots = words::records(&[inputs.word("left"), inputs.word("right")]);
    joistdenim::bounded_key(&pivots, &inputs.key("key")).map(words::of_bool)
}

pub fn shortest_uncommon_prefix(inputs: &Inputs) -> Answer {
    let mut dest = records_room();
    let written = joistdenim::shortest_uncommon_prefix(&inputs.key("newPrefix"), &mut dest)?;
    Ok(words::of_records(&dest[..written * RECORD_SIZE]))
}

pub fn translate_element(inputs: &Inputs) -> Answer {
    let (prefix, new_prefix) = prefixes(inputs);
    let mut dest = key_room();
    let length = joistdenim::change_prefix(&inputs.key("left"), &prefix, &new_prefix, &mut dest)?;
    Ok(words::of_key(&dest[..length]))
}

fn pivot_pair(left: &[u8], right: &[u8], prefix: &[u8], new_prefix: &[u8]) -> Answer {
    let mut dest = records_room();
    let written = joistdenim::translate_pivot_pair(left, right, prefix, new_prefix, &mut dest)?;
    Ok(words::of_records(&dest[..written * RECORD_SIZE]))
}

pub fn translate_pivot_pair_internal(inputs: &Inputs) -> Answer {
    let (prefix, new_prefix) = prefixes(inputs);
    let right = inputs.records("right");
    pivot_pair(&inputs.key("left"), &right, &prefix, &new_prefix)
}

/// Of a slot that has an edge: from its prefix to its edge, as `translate` says of its left pivot.
pub fn translate_pivot_pair(inputs: &Inputs) -> Answer {
    let (pivots, edges) = (inputs.records("pt"), inputs.records("et"));
    let (words, slot) = (inputs.words("pt"), inputs.number("slot") as usize);
    let Some([left, right]) = words.get(slot..slot + 2) else {
        return nothing_there();
    };
    let (left, right) = (words::key(left), words::record(right));
    let mut pair = pair_room();
    let there = joistdenim::translate(&pivots, &edges, &left, &mut pair)?;
    match words::of_pair(there, &pair).split_once(' ') {
        Some((old, new)) => pivot_pair(&left, &right, &words::key(old), &words::key(new)),
        None => nothing_there(),
    }
}

/// From a place on, which is a table too.
pub fn translate_pivots(inputs: &Inputs) -> Answer {
    let from = inputs.number("idx") as usize;
    let words = inputs.words("pt");
    let pivots = words::records(words.get(from..).unwrap_or_default());
    let ((prefix, new_prefix), end) = (prefixes(inputs), inputs.records("end"));
    let mut dest = records_room();
    let written = joistdenim::translate_pivots(&pivots, &prefix, &new_prefix, &end, &mut dest)?;
    Ok(words::of_records(&dest[..written * RECORD_SIZE]))
}

pub fn parent_keys_in_child_range(inputs: &Inputs) -> Answer {
    let (pivots, edges) = (inputs.records("pt"), inputs.records("et"));
    let (child, slot) = (inputs.records("child"), inputs.number("slot"));
    joistdenim::parent_keys_in_child_range(&pivots, &edges, &child, slot).map(words::of_bool)
}
