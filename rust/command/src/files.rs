//! Files that are read, standard input among them.
use crate::arguments::STREAM;
use crate::failure::{Failure, Refused};
use crate::kind::is_utf16;
use crate::refused;
use crate::Streams;
use joistdenim::{ListError, Table, ENTRY_SIZE, MAX_ENTRIES, MAX_PIVOTS, RECORD_SIZE};
use std::ffi::OsStr;
use std::fs::File;
use std::io::Read;
use std::str::FromStr;

/// The bytes of a table of so many pivots.
pub const fn table_size(pivots: usize) -> usize {
    2 + (2 * pivots - 1) * RECORD_SIZE
}

/// The bytes of the largest table; what is longer is refused whatever follows.
pub const MOST_TABLE: usize = table_size(MAX_PIVOTS);
/// A bucket's bytes are read up to here, far more than it can have, to say how many entries there
/// are too many.
pub const MOST_COUNTED: usize = 100 * MAX_ENTRIES * ENTRY_SIZE;
/// Most files are no longer: room is made for so much at once.
const USUAL: usize = 4 << 10;
/// The longest text, comments included.
const MOST_TEXT: usize = 1 << 20;

/// What a file is called in a message, on a terminal too.
pub fn name_of(path: &OsStr) -> String {
    match path == STREAM {
        true => "standard input".into(),
        false => path.to_string_lossy().replace(char::is_control, "?"),
    }
}

/// What was read, which should be a table.
pub struct Input {
    name: String,
    bytes: Vec<u8>,
}

impl Input {
    pub fn read(path: &OsStr, streams: &mut Streams) -> Result<Self, Failure> {
        let (name, bytes) = (name_of(path), bytes(path, MOST_TABLE, streams)?);
        Ok(Input { name, bytes })
    }

    /// Its pivots and edges, as they are lent to the library.
    pub fn records(&self) -> (&[u8], &[u8]) {
        Table::split_input(&self.bytes).unwrap_or_default()
    }

    pub fn table(&self) -> Result<Table, Refused> {
        let refused = |refusal| Refused {
            refusal,
            text: refused::table(&self.name, &self.bytes),
        };
        Table::try_from(&self.bytes[..]).map_err(refused)
    }
}

/// The file's bytes, or more than `most` where it has more.
pub fn bytes(path: &OsStr, most: usize, streams: &mut Streams) -> Result<Vec<u8>, Failure> {
    let mut bytes = Vec::with_capacity(USUAL);
    let limit = most as u64 + 1;
    let read = match path == STREAM {
        true => streams.input.take(limit).read_to_end(&mut bytes),
        false => File::open(path).and_then(|file| file.take(limit).read_to_end(&mut bytes)),
    };
    read.map_err(|error| Failure::file(&name_of(path), &error))?;
    Ok(bytes)
}

pub fn table(path: &OsStr, streams: &mut Streams) -> Result<Table, Failure> {
    Ok(Input::read(path, streams)?.table()?)
}

/// A table or bucket of a file's text. What isn't UTF-8 may stand in comments. If it is bytes, the
/// hint says what to do with them.
pub fn of_text<T: FromStr<Err = ListError>>(
    path: &OsStr,
    hint: &str,
    streams: &mut Streams,
) -> Result<T, Failure> {
    let text = bytes(path, MOST_TEXT, streams)?;
    let name = name_of(path);
    if is_utf16(&text) {
        return Err(Failure::File(format!("{name} is {}", refused::UTF_16)));
    }
    if text.contains(&0) {
        return Err(Failure::File(format!("{name} is no text; {hint}")));
    }
    if text.len() > MOST_TEXT {
        let text = format!("{name}: over {MOST_TEXT} bytes, which is no such text");
        return Err(Failure::File(text));
    }
    // Nearly every text is UTF-8, and then needn't be gone through character by character.
    let text = String::from_utf8(text)
        .unwrap_or_else(|error| String::from_utf8_lossy(error.as_bytes()).into_owned());
    text.parse().map_err(|error: ListError| {
        let place = format!("{name}, line {}, column {}", error.line(), error.column());
        match error.refusal() {
            Some(refusal) => Failure::refused(refusal, format!("{place}: {}", error.reason())),
            None => Failure::File(format!("{place}: {}", error.reason())),
        }
    })
}
