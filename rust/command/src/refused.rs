//! What a refusal means for what was asked.
use crate::failure::Refused;
use crate::files::{table_size, MOST_COUNTED, MOST_TABLE};
use crate::kind::{is_text, is_utf16};
use joistdenim::{
    Bucket, Element, Key, Refusal, Slot, Table, ENTRY_SIZE, MAX_ENTRIES, MAX_LEN, MAX_PIVOTS,
    MIN_PIVOTS,
};

/// What a text is that was saved with two bytes a character, and how it is mended.
pub const UTF_16: &str = "text in UTF-16: save it as UTF-8";

/// A file that is no table.
pub fn table(name: &str, input: &[u8]) -> String {
    let reason = Table::why_refused(input).map(|reason| format!("{name}, {reason}"));
    let text = || text(name, input, "'joistdenim table' makes a table of a list");
    reason.or_else(text).unwrap_or_else(|| shape(name, input))
}

/// Bytes that are no bucket.
pub fn entries(name: &str, bytes: &[u8]) -> String {
    let reason = Bucket::why_refused(bytes).map(|reason| format!("{name}, {reason}"));
    let text = || text(name, bytes, "without --bytes it is read");
    reason.or_else(text).unwrap_or_else(|| number(name, bytes))
}

/// Text where bytes are wanted. The hint says what reads it.
fn text(name: &str, bytes: &[u8], hint: &str) -> Option<String> {
    match is_utf16(bytes) {
        true => Some(format!("{name} is {UTF_16}, and {hint}")),
        false => is_text(bytes).then(|| format!("{name} is text; {hint}")),
    }
}

fn shape(name: &str, input: &[u8]) -> String {
    let length = at_most(input.len(), MOST_TABLE);
    let count = input.split_first_chunk();
    match count.map(|(count, _)| u16::from_be_bytes(*count).into()) {
        None => format!(
            "{name} is too short: the smallest table has {} bytes",
            table_size(MIN_PIVOTS)
        ),
        Some(count @ MIN_PIVOTS..=MAX_PIVOTS) => {
            let size = table_size(count);
            format!("{name} has {length} bytes, and a table of {count} pivots has {size}")
        }
        Some(count) => format!(
            "{name} begins with a count of {count}, and a table has {MIN_PIVOTS} to {MAX_PIVOTS} pivots"
        ),
    }
}

/// A number of bytes, of which no more were read than one over the most.
fn at_most(length: usize, most: usize) -> String {
    match length <= most {
        true => length.to_string(),
        false => format!("over {most}"),
    }
}

/// A number of bytes or entries that no bucket has.
fn number(name: &str, bytes: &[u8]) -> String {
    let (length, entries) = (bytes.len(), bytes.len() / ENTRY_SIZE);
    let most = format!("a bucket has at most {MAX_ENTRIES}");
    if length > MOST_COUNTED {
        return format!("{name} has over {entries} entries, and {most}");
    }
    if length % ENTRY_SIZE == 0 {
        return format!("{name} has {entries} entries, and {most}");
    }
    let kind = match Table::try_from(bytes) {
        Ok(_) => "; it is a table",
        Err(_) => "",
    };
    format!("{name} has {length} bytes, which is no multiple of {ENTRY_SIZE}, the bytes of an entry{kind}")
}

/// The first and the last pivot, as text.
pub fn ends(table: &Table) -> (String, String) {
    let text = |pivot: Option<Element>| pivot.map_or(String::new(), |pivot| pivot.to_string());
    (text(table.pivots().next()), text(table.pivots().last()))
}

/// The key of these bytes.
pub fn key_of(bytes: &[u8]) -> Result<Key, Refused> {
    Key::try_from(bytes).map_err(|refusal| Refused {
        refusal,
        text: long_key(&digits(bytes), bytes.len()),
    })
}

pub fn digits(bytes: &[u8]) -> String {
    let mut text = String::with_capacity(2 * bytes.len());
    for byte in bytes {
        for digit in [byte >> 4, byte & 0xF] {
            text.extend(char::from_digit(digit.into(), 16));
        }
    }
    text
}

/// The characters of a key in quotation marks, those that can't be printed as escapes.
pub fn quoted(bytes: &[u8]) -> String {
    let mut text = String::new();
    put_quoted(&mut text, bytes);
    text
}

pub fn put_quoted(text: &mut String, bytes: &[u8]) {
    text.push('"');
    text.extend(bytes.escape_ascii().map(char::from));
    text.push('"');
}

pub fn long_key(shown: &str, length: usize) -> String {
    format!("{shown} has {length} bytes, and a key has at most {MAX_LEN}")
}

/// A key that isn't translated.
pub fn key(table: &Table, shown: &str, slot: Option<&Slot>, refusal: Refusal) -> String {
    match (refusal, slot) {
        (Refusal::OutOfRange, _) => {
            let (first, last) = ends(table);
            format!(
                "{shown} is outside the table, which goes from {first} up to, but without, {last}"
            )
        }
        (Refusal::TooLong, Some(slot)) => format!(
            "{shown} with {} in place of {} would pass {MAX_LEN} bytes",
            slot.edge, slot.shared
        ),
        _ => format!("{shown}: {}", refusal.meaning()),
    }
}

/// A cut or insertion that isn't made. `allowed` says between which keys it can be.
pub fn change(key: &Key, allowed: &str, refusal: Refusal) -> String {
    match refusal {
        Refusal::OutOfRange => format!("the key must be {allowed}, and {key} isn't"),
        Refusal::TooLong => format!("at {key} an edge would pass {MAX_LEN} bytes"),
        Refusal::AlreadyPivot => format!("{key} is already a pivot"),
        _ => refusal.meaning().into(),
    }
}

/// Two tables that aren't joined.
pub fn join(first: &Table, second: &Table, refusal: Refusal) -> String {
    match refusal {
        Refusal::NotMeeting => {
            let ((_, end), (begin, _)) = (ends(first), ends(second));
            format!(
                "the tables don't meet: the first ends with {end}, the second begins with {begin}"
            )
        }
        _ => refusal.meaning().into(),
    }
}
