//! A key as people write it: in hexadecimal, or with `--text` as it stands.
use joistdenim::{from_hex, TextError};

/// The empty key, where standard input can't stand.
const EMPTY: &[u8] = b"-";

/// Why something is no key, and at which of its characters, from 1.
pub struct Fault {
    pub column: usize,
    pub text: String,
}

/// The bytes of a key, though they may be too many for one. Spaces around digits are passed over.
pub fn read(word: &[u8], as_written: bool) -> Result<Vec<u8>, Fault> {
    match (word.trim_ascii(), as_written) {
        (_, true) => Ok(word.into()),
        (EMPTY, false) => Ok(vec![]),
        (digits, false) => {
            let before = word.len() - word.trim_ascii_start().len();
            hexadecimal(&String::from_utf8_lossy(digits)).map_err(|(place, text)| Fault {
                column: before + place + 1,
                text,
            })
        }
    }
}

/// The bytes of digits, parted by nothing, by spaces, or by a colon each; else after how many
/// characters which fault shows. A tab parts no bytes: it stands between columns.
fn hexadecimal(text: &str) -> Result<Vec<u8>, (usize, String)> {
    let separator = if text.contains(':') { ':' } else { ' ' };
    let mut bytes = vec![];
    let mut place = 0;
    for part in text.split(separator) {
        if part.is_empty() && separator == ':' {
            let colon = place.min(text.len() - 1);
            let missing = "a colon stands between two bytes, and one is missing";
            return Err((colon, missing.into()));
        }
        let part_bytes = from_hex(part).map_err(|error| {
            let place = place + error.place();
            (place, fault(error, text.chars().nth(place)))
        })?;
        bytes.extend(part_bytes);
        // A part that was read is digits, so its bytes are its characters.
        place += part.len() + 1;
    }
    Ok(bytes)
}

/// What is wrong at a character, or where the digits end.
fn fault(error: TextError, found: Option<char>) -> String {
    match (error, found) {
        (TextError::HalfByte { .. }, Some(separator)) => {
            format!("a byte has two digits, and {separator:?} stands between them")
        }
        (TextError::NoDigit { .. }, Some(' ')) => {
            "bytes are parted by spaces or by colons, not by both".into()
        }
        _ => error.to_string(),
    }
}
