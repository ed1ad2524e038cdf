//! Records of 66 bytes: a length field of two bytes, high byte first, then 64 bytes, zero after
//! the key's end.
use crate::refusal::{refuse_if, Refusal};

pub const MAX_LEN: usize = 64;
pub const RECORD_SIZE: usize = 66;
const NO_EDGE: u16 = 65_534;
const MAX: u16 = 65_535;

pub(crate) type Record = [u8; RECORD_SIZE];

/// A key or max. The derived order is document 01's: slices by the first differing byte, a
/// proper prefix first, and max, the later variant, above every key.
#[derive(Clone, Copy, Debug, PartialEq, Eq, PartialOrd, Ord)]
pub enum Element<'a> {
    Key(&'a [u8]),
    Max,
}

/// What a slot carries in place of its range's prefix, if anything.
#[derive(Clone, Copy, Debug, PartialEq, Eq)]
pub enum Edge<'a> {
    To(&'a [u8]),
    Absent,
}

/// The three good readings of a record.
enum Reading<'a> {
    Key(&'a [u8]),
    NoEdge,
    Max,
}

/// A slice that must be one record: cause 1.
pub(crate) fn one_record(bytes: &[u8]) -> Result<&Record, Refusal> {
    bytes.try_into().map_err(|_| Refusal::Shape)
}

/// A key or prefix argument: cause 2.
pub(crate) fn short(bytes: &[u8]) -> Result<&[u8], Refusal> {
    refuse_if(bytes.len() > MAX_LEN, Refusal::Malformed)?;
    Ok(bytes)
}

/// A malformed record is cause 2.
fn read(record: &Record) -> Result<Reading<'_>, Refusal> {
    let (field, bytes) = record.split_at(2);
    let field = u16::from_be_bytes([field[0], field[1]]);
    let (reading, zeros) = match field {
        NO_EDGE => (Reading::NoEdge, bytes),
        MAX => (Reading::Max, bytes),
        _ if usize::from(field) <= MAX_LEN => {
            let (key, zeros) = bytes.split_at(usize::from(field));
            (Reading::Key(key), zeros)
        }
        _ => return Err(Refusal::Malformed),
    };
    refuse_if(zeros.iter().any(|&b| b != 0), Refusal::Malformed)?;
    Ok(reading)
}

/// A record where only a key may stand.
pub(crate) fn key(record: &Record) -> Result<&[u8], Refusal> {
    match read(record)? {
        Reading::Key(key) => Ok(key),
        Reading::NoEdge | Reading::Max => Err(Refusal::Malformed),
    }
}

/// A record where a key or max may stand.
pub(crate) fn element(record: &Record) -> Result<Element<'_>, Refusal> {
    match read(record)? {
        Reading::Key(key) => Ok(Element::Key(key)),
        Reading::Max => Ok(Element::Max),
        Reading::NoEdge => Err(Refusal::Malformed),
    }
}

/// A record where a key or "no edge" may stand.
pub(crate) fn edge(record: &Record) -> Result<Edge<'_>, Refusal> {
    match read(record)? {
        Reading::Key(key) => Ok(Edge::To(key)),
        Reading::NoEdge => Ok(Edge::Absent),
        Reading::Max => Err(Refusal::Malformed),
    }
}

/// Writes a record with this length field and zeros at the head of `dest`, and hands back the
/// place of its bytes: cause 10.
pub(crate) fn blank(field: u16, dest: &mut [u8]) -> Result<&mut [u8], Refusal> {
    let record = dest.get_mut(..RECORD_SIZE).ok_or(Refusal::NoRoom)?;
    record.fill(0);
    let (length, bytes) = record.split_at_mut(2);
    length.copy_from_slice(&field.to_be_bytes());
    Ok(bytes)
}

/// Writes a record with this length field and these bytes at the head of `dest`: cause 10.
fn put(field: u16, bytes: &[u8], dest: &mut [u8]) -> Result<(), Refusal> {
    blank(field, dest)?[..bytes.len()].copy_from_slice(bytes);
    Ok(())
}

/// Writes records one after the other and answers how many: cause 10, before a byte is written.
pub(crate) fn put_all<T>(
    records: &[T],
    put: impl Fn(&T, &mut [u8]) -> Result<(), Refusal>,
    dest: &mut [u8],
) -> Result<usize, Refusal> {
    refuse_if(dest.len() < records.len() * RECORD_SIZE, Refusal::NoRoom)?;
    for (record, dest) in records.iter().zip(dest.chunks_mut(RECORD_SIZE)) {
        put(record, dest)?;
    }
    Ok(records.len())
}

impl Element<'_> {
    /// Writes the element's record at the head of `dest`: cause 10.
    pub(crate) fn put(&self, dest: &mut [u8]) -> Result<(), Refusal> {
        match self {
            Element::Key(key) => put(key.len() as u16, key, dest),
            Element::Max => put(MAX, &[], dest),
        }
    }
}

impl Edge<'_> {
    /// Writes the edge's record at the head of `dest`: cause 10.
    pub(crate) fn put(&self, dest: &mut [u8]) -> Result<(), Refusal> {
        match self {
            Edge::To(prefix) => put(prefix.len() as u16, prefix, dest),
            Edge::Absent => put(NO_EDGE, &[], dest),
        }
    }
}
