//! Pairs: `PrefixSet` under `Option`, as a record of 133 bytes. Reversing, applying, composing.
use crate::image::Image;
use crate::record::{short, MAX_LEN};
use crate::refusal::{refuse_if, Refusal};

/// Behind the flag, the lengths of both prefixes, in two bytes each; then the prefixes.
const OLD_LENGTH_AT: usize = 1;
const NEW_LENGTH_AT: usize = 3;
const OLD_AT: usize = 5;
const NEW_AT: usize = OLD_AT + MAX_LEN;
pub const PAIR_SIZE: usize = NEW_AT + MAX_LEN;

type PairRecord = [u8; PAIR_SIZE];

/// A pair that is there; the absent pair is `None`.
#[derive(Clone, Copy)]
pub(crate) struct Pair<'a> {
    pub(crate) old: &'a [u8],
    pub(crate) new: &'a [u8],
}

impl<'a> Pair<'a> {
    fn reversed(self) -> Self {
        Pair {
            old: self.new,
            new: self.old,
        }
    }

    /// What the pair makes of a key: cause 7.
    fn image(&self, key: &'a [u8]) -> Result<Image<'a>, Refusal> {
        Image::of(key, self.old, self.new)
    }
}

/// "A pair that isn't 133 bytes is 1."
fn one_pair(bytes: &[u8]) -> Result<&PairRecord, Refusal> {
    bytes.try_into().map_err(|_| Refusal::Shape)
}

/// Cause 2: the flag isn't 0 or 1, or "a length over 64 in a pair that is there". "Bytes past a
/// length, and everything after byte 0 of an absent pair, are not looked at in an argument".
fn read(record: &PairRecord) -> Result<Option<Pair<'_>>, Refusal> {
    let length = |at| usize::from(u16::from_be_bytes([record[at], record[at + 1]]));
    let prefix = |at: usize, length| {
        refuse_if(length > MAX_LEN, Refusal::Malformed)?;
        Ok(&record[at..at + length])
    };
    match record[0] {
        0 => Ok(None),
        1 => Ok(Some(Pair {
            old: prefix(OLD_AT, length(OLD_LENGTH_AT))?,
            new: prefix(NEW_AT, length(NEW_LENGTH_AT))?,
        })),
        _ => Err(Refusal::Malformed),
    }
}

/// Writes a pair of these prefixes at the head of `dest`, or the absent pair; "and are zero in a
/// result". Answers whether the pair is there. Causes 8 and 10.
fn put_images(prefixes: Option<[Image; 2]>, dest: &mut [u8]) -> Result<bool, Refusal> {
    for prefix in prefixes.iter().flatten() {
        prefix.fit()?;
    }
    let record = dest.get_mut(..PAIR_SIZE).ok_or(Refusal::NoRoom)?;
    record.fill(0);
    let Some([old, new]) = prefixes else {
        return Ok(false);
    };
    record[0] = 1;
    record[OLD_LENGTH_AT..NEW_LENGTH_AT].copy_from_slice(&(old.len() as u16).to_be_bytes());
    record[NEW_LENGTH_AT..OLD_AT].copy_from_slice(&(new.len() as u16).to_be_bytes());
    old.put(&mut record[OLD_AT..])?;
    new.put(&mut record[NEW_AT..])?;
    Ok(true)
}

/// Writes a pair at the head of `dest` and answers whether it is there: cause 10.
pub(crate) fn put(pair: Option<Pair>, dest: &mut [u8]) -> Result<bool, Refusal> {
    let prefixes = pair.map(|pair| [pair.old, pair.new].map(Image::same));
    put_images(prefixes, dest)
}

/// Writes what a pair makes of a key, and of an absent pair the key; answers its length. Causes
/// 7, 8 and 10.
pub(crate) fn apply(pair: Option<Pair>, key: &[u8], dest: &mut [u8]) -> Result<usize, Refusal> {
    let image = match pair {
        Some(pair) => Image::of(key, pair.old, pair.new)?,
        None => Image::same(key),
    };
    image.fit()?;
    image.put(dest)
}

/// Writes the pair with old and new prefix swapped and answers whether it is there.
pub fn reverse_pair(pair: &[u8], dest: &mut [u8]) -> Result<bool, Refusal> {
    let pair = read(one_pair(pair)?)?;
    put(pair.map(Pair::reversed), dest)
}

/// Writes the key with the pair's new prefix in place of its old one and answers its length.
pub fn apply_pair(pair: &[u8], key: &[u8], dest: &mut [u8]) -> Result<usize, Refusal> {
    let pair = read(one_pair(pair)?)?;
    apply(pair, short(key)?, dest)
}

/// "It undoes b and then does a: for each k beginning with both old prefixes, the result takes
/// b's image of k to a's image of k". The shortest such k is the longer of the old prefixes.
/// "Absent a: b reversed. Absent b: a." Answers whether the pair written is there.
pub fn compose_pairs(a: &[u8], b: &[u8], dest: &mut [u8]) -> Result<bool, Refusal> {
    let (a, b) = (one_pair(a)?, one_pair(b)?);
    let (a, b) = match (read(a)?, read(b)?) {
        (Some(a), Some(b)) => (a, b),
        (None, b) => return put(b.map(Pair::reversed), dest),
        (a, None) => return put(a, dest),
    };
    let shortest = if a.old.len() > b.old.len() {
        a.old
    } else {
        b.old
    };
    put_images(Some([b.image(shortest)?, a.image(shortest)?]), dest)
}
