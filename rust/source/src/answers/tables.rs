//! Of a table, a key and a place.
use super::{key_room, nothing_there, pair_room, records_room, Answer};
use crate::inputs::Inputs;
use crate::words;
use joistdenim::{Refusal, RECORD_SIZE};

pub fn init_pivot_table(_: &Inputs) -> Answer {
    let mut dest = records_room();
    let written = joistdenim::init_pivot_table(&mut dest)?;
    Ok(words::of_records(&dest[..written * RECORD_SIZE]))
}

/// A record that `compare` takes is a key or max.
pub fn elements_are_keys(inputs: &Inputs) -> Answer {
    let pivots = inputs.records("pt");
    let taken = |e: &[u8]| joistdenim::compare(e, e).is_ok();
    Ok(words::of_bool(pivots.chunks(RECORD_SIZE).all(taken)))
}

pub fn wf_pivots(inputs: &Inputs) -> Answer {
    joistdenim::wf_pivots(&inputs.records("pt")).map(|()| words::of_bool(true))
}

pub fn wf_edges(inputs: &Inputs) -> Answer {
    let (pivots, edges) = (inputs.records("pt"), inputs.records("et"));
    joistdenim::wf_edges(&pivots, &edges).map(|()| words::of_bool(true))
}

pub fn contains_all_keys(inputs: &Inputs) -> Answer {
    joistdenim::contains_all_keys(&inputs.records("pt")).map(words::of_bool)
}

/// A record "no edge" for each slot.
fn no_edges(pivots: &[u8]) -> Vec<u8> {
    let slots = (pivots.len() / RECORD_SIZE).saturating_sub(1);
    words::record("-").repeat(slots)
}

/// As many as edges are written.
pub fn num_buckets(inputs: &Inputs) -> Answer {
    let pivots = inputs.records("pt");
    let edges = no_edges(&pivots);
    joistdenim::translate_edges(&pivots, &edges, &mut records_room()).map(|n| n.to_string())
}

pub fn key_to_element(inputs: &Inputs) -> Answer {
    let record = words::record(inputs.word("key"));
    joistdenim::pivot_key(&record).map(words::of_key)
}

pub fn bounded_key(inputs: &Inputs) -> Answer {
    joistdenim::bounded_key(&inputs.records("pt"), &inputs.key("key")).map(words::of_bool)
}

pub fn valid_left_cut_off_key(inputs: &Inputs) -> Answer {
    joistdenim::valid_left_cut_off_key(&inputs.records("pt"), &inputs.key("key"))
        .map(words::of_bool)
}

/// A call that finds a slot.
type Slot = fn(&[u8], &[u8]) -> Result<usize, Refusal>;

fn slot(inputs: &Inputs, call: Slot) -> Answer {
    call(&inputs.records("pt"), &inputs.key("key")).map(|slot| slot.to_string())
}

pub fn route(inputs: &Inputs) -> Answer {
    slot(inputs, joistdenim::route)
}

pub fn cutoff_for_left(inputs: &Inputs) -> Answer {
    slot(inputs, joistdenim::cutoff_for_left)
}

pub fn cutoff_for_right(inputs: &Inputs) -> Answer {
    slot(inputs, joistdenim::cutoff_for_right)
}

/// A call that writes a table.
type Cut = fn(&[u8], &[u8], &[u8], &mut [u8], &mut [u8]) -> Result<usize, Refusal>;

/// The pivots and the edges that are written.
fn written(inputs: &Inputs, edges: &[u8], call: Cut) -> Result<[String; 2], Refusal> {
    let (pivots, key) = (inputs.records("pt"), inputs.key("key"));
    let (mut dest, mut dest_edges) = (records_room(), records_room());
    let count = call(&pivots, edges, &key, &mut dest, &mut dest_edges)?;
    let pivots = words::of_records(&dest[..count * RECORD_SIZE]);
    let edges = words::of_records(&dest_edges[..(count - 1) * RECORD_SIZE]);
    Ok([pivots, edges])
}

/// Of a table without edges, which must stay without.
fn pivots_of(inputs: &Inputs, call: Cut) -> Answer {
    let [pivots, edges] = written(inputs, &no_edges(&inputs.records("pt")), call)?;
    if edges.split(' ').any(|edge| edge != "-") {
        return Ok(format!("{pivots} | {edges}"));
    }
    Ok(pivots)
}

fn table_of(inputs: &Inputs, call: Cut) -> Answer {
    let table = written(inputs, &inputs.records("et"), call)?;
    Ok(table.join(" | "))
}

pub fn split_left(inputs: &Inputs) -> Answer {
    pivots_of(inputs, joistdenim::split_left)
}

pub fn split_right(inputs: &Inputs) -> Answer {
    pivots_of(inputs, joistdenim::split_right)
}

pub fn insert_pivot(inputs: &Inputs) -> Answer {
    table_of(inputs, joistdenim::insert_pivot)
}

pub fn split_left_edges(inputs: &Inputs) -> Answer {
    table_of(inputs, joistdenim::split_left)
}

pub fn split_right_edges(inputs: &Inputs) -> Answer {
    table_of(inputs, joistdenim::split_right)
}

pub fn translate(inputs: &Inputs) -> Answer {
    let (pivots, edges) = (inputs.records("pt"), inputs.records("et"));
    let mut dest = pair_room();
    let there = joistdenim::translate(&pivots, &edges, &inputs.key("key"), &mut dest)?;
    Ok(words::of_pair(there, &dest))
}

pub fn translate_key(inputs: &Inputs) -> Answer {
    let (pivots, edges) = (inputs.records("pt"), inputs.records("et"));
    let mut dest = key_room();
    let length = joistdenim::translate_key(&pivots, &edges, &inputs.key("key"), &mut dest)?;
    Ok(words::of_key(&dest[..length]))
}

pub fn pivot_insertable(inputs: &Inputs) -> Answer {
    let (pivots, place) = (inputs.records("pt"), inputs.number("idx"));
    joistdenim::pivot_insertable(&pivots, place, &inputs.key("key")).map(words::of_bool)
}

pub fn get_key(inputs: &Inputs) -> Answer {
    let pivots = inputs.records("pt");
    joistdenim::get_key(&pivots, inputs.number("idx")).map(words::of_key)
}

/// Whether an edge may stand there.
pub fn non_empty_lcp(inputs: &Inputs) -> Answer {
    let pivots = inputs.records("pt");
    let mut edges = no_edges(&pivots);
    let slot = edges
        .chunks_mut(RECORD_SIZE)
        .nth(inputs.number("idx") as usize);
    let Some(slot) = slot else {
        return nothing_there();
    };
    slot.copy_from_slice(&words::record("."));
    match joistdenim::wf_edges(&pivots, &edges) {
        Ok(()) => Ok(words::of_bool(true)),
        Err(Refusal::EmptyPrefix) => Ok(words::of_bool(false)),
        Err(refusal) => Err(refusal),
    }
}

/// From a place on.
pub fn translate_edges(inputs: &Inputs) -> Answer {
    let (pivots, edges) = (inputs.records("pt"), inputs.records("et"));
    let mut dest = records_room();
    let written = joistdenim::translate_edges(&pivots, &edges, &mut dest)?;
    let from = inputs.number("idx") as usize * RECORD_SIZE;
    match dest[..written * RECORD_SIZE].get(from..) {
        Some(rest) => Ok(words::of_records(rest)),
        None => nothing_there(),
    }
}
