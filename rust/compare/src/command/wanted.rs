//! What the reference says, in the forms that the command reads and writes.
use crate::call::Hex;
use crate::list::dests::ROOM;
use crate::list_inputs::joined;
use reference::{Refusal, MAX_PIVOTS};

/// What a run should write to standard output, or the number of the refusal.
pub type Wanted = Result<Vec<u8>, u32>;

/// What is wanted, and what should be said on standard error where it is done, as a text for where
/// a case fails.
pub fn text(wanted: &Wanted, said: &str) -> String {
    match wanted {
        Ok(output) => format!("output {}, errors {said:?}", Hex(output)),
        Err(number) => format!("refusal {number}"),
    }
}

/// The digits of a key; none of the empty one.
pub fn digits(key: &[u8]) -> String {
    let mut text = String::with_capacity(2 * key.len());
    for byte in key {
        for digit in [byte >> 4, byte & 0xF] {
            text.extend(char::from_digit(digit.into(), 16));
        }
    }
    text
}

/// A key as it stands in texts.
pub fn key_text(key: &[u8]) -> String {
    match key {
        [] => "-".into(),
        _ => digits(key),
    }
}

/// The text of an input's list, or of its refusal.
pub fn list_text(input: &[u8]) -> String {
    let mut dest = [0; ROOM];
    let length = reference::list_table(input, &mut dest).expect("there is room for any text");
    let text = str::from_utf8(&dest[..length]).expect("a list is a text");
    text.into()
}

/// The number in the text of a refusal.
pub fn refusal_in(text: &str) -> Option<u32> {
    let number = text.strip_prefix("refused\t")?.strip_suffix('\n')?;
    number.parse().ok()
}

/// The list of a table, or the number of its refusal.
pub fn list_of(input: &[u8]) -> Result<String, u32> {
    let text = list_text(input);
    refusal_in(&text).map_or(Ok(text), Err)
}

/// The pivots and the edges of an input that has all its pivots.
pub fn parts(input: &[u8]) -> [&[u8]; 2] {
    let (count, records) = input.split_first_chunk().expect("it has a count");
    let (pivots, edges) = records.split_at(66 * usize::from(u16::from_be_bytes(*count)));
    [pivots, edges]
}

/// The table that a call of the reference writes.
pub fn written(call: impl FnOnce(&mut [u8], &mut [u8]) -> Result<usize, Refusal>) -> Wanted {
    let mut dests = [[0; 66 * MAX_PIVOTS]; 2];
    let [pivots, edges] = &mut dests;
    let count = call(pivots, edges).map_err(Refusal::number)?;
    Ok(joined(&pivots[..66 * count], &edges[..66 * (count - 1)]))
}

/// The key that a call of the reference writes.
pub fn key(call: impl FnOnce(&mut [u8]) -> Result<usize, Refusal>) -> Wanted {
    let mut dest = [0; 64];
    let length = call(&mut dest).map_err(Refusal::number)?;
    Ok(dest[..length].to_vec())
}
