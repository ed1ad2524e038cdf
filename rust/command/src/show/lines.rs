//! Keys on standard input, one a line.
use crate::failure::Failure;
use crate::keys::{self, Fault};
use crate::Streams;
use std::io::{BufRead, Read};

/// A longer line is no key, and not kept in memory.
const MOST: usize = 1 << 16;

/// What an editor may put before the first line.
const BYTE_ORDER_MARK: &[u8] = "\u{feff}".as_bytes();

/// The next line without its end, if there is one; of a longer line one byte more than the most.
pub fn next(streams: &mut Streams) -> Result<Option<Vec<u8>>, Failure> {
    let mut line = vec![];
    let input = &mut streams.input;
    let unread = |error| Failure::file("standard input", &error);
    let mut head = input.take(MOST as u64 + 1);
    let read = head.read_until(b'\n', &mut line).map_err(unread)?;
    if line.pop_if(|last| *last == b'\n').is_none() && line.len() > MOST {
        input.skip_until(b'\n').map_err(unread)?;
    }
    Ok((read > 0).then_some(line))
}

/// The bytes of a line's key, if it has one, or why it is none. With text a line is taken as it
/// stands.
pub fn key(line: &[u8], number: usize, as_written: bool) -> Result<Option<Vec<u8>>, String> {
    let key = match as_written {
        true => of_text(line).map(Some),
        false => of_digits(without_mark(line, number)),
    };
    key.map_err(|Fault { column, text }| {
        format!("standard input, line {number}, column {column}: {text}")
    })
}

fn without_mark(line: &[u8], number: usize) -> &[u8] {
    let rest = line.strip_prefix(BYTE_ORDER_MARK);
    rest.filter(|_| number == 1).unwrap_or(line)
}

fn of_text(line: &[u8]) -> Result<Vec<u8>, Fault> {
    let line = short(line)?;
    if line.ends_with(b"\r") {
        let text = "whether this CR ends the line or the key can't be told".into();
        let column = line.len();
        return Err(Fault { column, text });
    }
    Ok(line.into())
}

/// As in a list, a blank line and what follows a `#` are passed over.
fn of_digits(line: &[u8]) -> Result<Option<Vec<u8>>, Fault> {
    let line = line.split(|byte| *byte == b'#').next().unwrap_or_default();
    match short(line)?.trim_ascii() {
        [] => Ok(None),
        _ => keys::read(line, false).map(Some),
    }
}

fn short(line: &[u8]) -> Result<&[u8], Fault> {
    if line.len() <= MOST {
        return Ok(line);
    }
    let text = format!("a line has at most {MOST} bytes");
    let column = MOST + 1;
    Err(Fault { column, text })
}
