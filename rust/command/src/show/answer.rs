//! What becomes of a key, by the library.
use crate::failure::Refused;
use crate::refused::{self, digits, long_key, quoted};
use joistdenim::{Key, Pair, Slot, Table};

/// The answer to one key.
pub struct Answer {
    /// The bytes, though they may be too many for a key.
    pub asked: Vec<u8>,
    pub slot: Option<Slot>,
    /// The renamed key and its slot's pair of prefixes, or why there is none.
    pub renamed: Result<(Key, Pair), Refused>,
}

pub fn answer(table: &Table, asked: Vec<u8>, as_text: bool) -> Answer {
    let shown = shown(&asked, as_text);
    let key = Key::try_from(&asked[..]).map_err(|refusal| Refused {
        refusal,
        text: long_key(&shown, asked.len()),
    });
    let slot = key.as_ref().ok().and_then(|key| table.route(key).ok());
    let renamed = key.and_then(|key| {
        let renamed = table.translate_key(&key);
        let renamed = renamed.and_then(|renamed| Ok((renamed, table.translate(&key)?)));
        renamed.map_err(|refusal| Refused {
            refusal,
            text: refused::key(table, &shown, slot.as_ref(), refusal),
        })
    });
    Answer {
        asked,
        slot,
        renamed,
    }
}

/// A key as people see it: in hexadecimal, and where keys are written as text, their characters.
pub fn shown(key: &[u8], as_text: bool) -> String {
    match (key, as_text) {
        ([], _) => format!("{} (empty)", Key::EMPTY),
        (_, true) => format!("{} {}", digits(key), quoted(key)),
        (_, false) => digits(key),
    }
}
