//! A bucket as a value.
use crate::buckets::{translate_bucket, translate_bucket_will_fit};
use crate::key::Key;
use crate::keys::entry_key;
use crate::lines::{rows, Fault, Field, ListError};
use crate::refusal::Refusal;
use crate::{ENTRY_SIZE, MAX_ENTRIES, RECORD_SIZE};
use std::fmt;
use std::str::FromStr;

/// Keys with their numbers, at most 512, in any order; keys may be equal. The library has checked
/// it when it was made.
///
/// As bytes it is its entries. As text it has a line for each: the key, a tab and the number.
///
/// ```
/// use joistdenim::Bucket;
///
/// let bucket: Bucket = "4130 7\n42 8\n".parse()?;
/// let renamed = bucket.translate(&"41".parse()?, &"43".parse()?)?;
/// assert_eq!(renamed.to_string(), "4330\t7\n");
/// assert_eq!(Bucket::try_from(renamed.as_bytes())?, renamed);
/// # Ok::<(), Box<dyn std::error::Error>>(())
/// ```
#[derive(Clone, Default, PartialEq, Eq, Hash)]
pub struct Bucket(Vec<u8>);

/// An entry's number, in an entry high byte first.
pub type Number = u32;

/// A key with its number.
#[derive(Clone, Copy, Debug, PartialEq, Eq, Hash)]
pub struct Entry {
    /// The key, which other entries may have too.
    pub key: Key,
    /// The number, which is the caller's and stays with its key.
    pub number: Number,
}

impl Bucket {
    /// Refuses 1, more than 512 entries.
    pub fn new(entries: &[Entry]) -> Result<Self, Refusal> {
        let bytes: Vec<u8> = entries.iter().flat_map(Entry::to_bytes).collect();
        Bucket::try_from(&bytes[..])
    }

    /// The entries, one after the other, as the calls on slices are lent them.
    pub fn as_bytes(&self) -> &[u8] {
        &self.0
    }

    /// The entries, in their order.
    pub fn entries(&self) -> impl ExactSizeIterator<Item = Entry> + '_ {
        self.0.chunks(ENTRY_SIZE).map(|entry| {
            let key = entry_key(entry).and_then(Key::try_from);
            let number = entry[RECORD_SIZE..].try_into();
            Entry {
                key: key.expect("an entry of a bucket has a key"),
                number: Number::from_be_bytes(number.expect("a number has its bytes")),
            }
        })
    }

    /// The entries whose key begins with the prefix, in their order, with the prefix changed; the
    /// others are passed over. Refuses 8.
    pub fn translate(&self, prefix: &Key, new_prefix: &Key) -> Result<Self, Refusal> {
        let mut dest = vec![0; MAX_ENTRIES * ENTRY_SIZE];
        let (prefix, new_prefix) = (prefix.as_bytes(), new_prefix.as_bytes());
        let kept = translate_bucket(&self.0, prefix, new_prefix, &mut dest)?;
        dest.truncate(kept * ENTRY_SIZE);
        Ok(Bucket(dest))
    }
}

impl Entry {
    /// The key's record, and the number's bytes, high byte first.
    pub fn to_bytes(&self) -> [u8; ENTRY_SIZE] {
        let mut bytes = [0; ENTRY_SIZE];
        bytes[..RECORD_SIZE].copy_from_slice(self.key.record());
        bytes[RECORD_SIZE..].copy_from_slice(&self.number.to_be_bytes());
        bytes
    }
}

/// Takes the entries. Refuses 1, 2.
impl TryFrom<&[u8]> for Bucket {
    type Error = Refusal;

    fn try_from(bytes: &[u8]) -> Result<Self, Refusal> {
        // Whatever the answer, it is given of a bucket alone.
        translate_bucket_will_fit(bytes, &[], &[], 0)?;
        Ok(Bucket(bytes.to_vec()))
    }
}

/// Reads a line for each entry. Spaces may stand for tabs; blank lines are passed over, and so is
/// what follows a `#`.
impl FromStr for Bucket {
    type Err = ListError;

    fn from_str(text: &str) -> Result<Self, ListError> {
        let rows = rows(text).rows;
        let entries: Result<Vec<Entry>, ListError> = rows.iter().map(|row| entry(row)).collect();
        Bucket::new(&entries?).map_err(|refusal| {
            // Only the number of the entries can be at fault, and so the first too many is there.
            let count = rows.len();
            let meaning =
                format!("a bucket has at most {MAX_ENTRIES} entries, and this has {count}");
            rows[MAX_ENTRIES][0].fault(Fault::Refused(refusal, meaning))
        })
    }
}

fn entry(row: &[Field]) -> Result<Entry, ListError> {
    let [key, number] = row else {
        return Err(row[0].fault(Fault::Entry(row.len())));
    };
    // A sign isn't a digit, though the number would be read.
    let digits = number.text.bytes().all(|byte| byte.is_ascii_digit());
    let read = number.text.parse().ok().filter(|_| digits);
    Ok(Entry {
        key: key.read()?,
        number: read.ok_or_else(|| number.fault(Fault::Number))?,
    })
}

impl fmt::Display for Bucket {
    fn fmt(&self, f: &mut fmt::Formatter<'_>) -> fmt::Result {
        self.entries().try_for_each(|entry| writeln!(f, "{entry}"))
    }
}

impl fmt::Display for Entry {
    fn fmt(&self, f: &mut fmt::Formatter<'_>) -> fmt::Result {
        write!(f, "{}\t{}", self.key, self.number)
    }
}

impl fmt::Debug for Bucket {
    fn fmt(&self, f: &mut fmt::Formatter<'_>) -> fmt::Result {
        f.debug_list().entries(self.entries()).finish()
    }
}
