//! A key that is produced: "Changing prefix p to q in k gives q followed by k without its first
//! |p| bytes."
use crate::record::{blank, MAX_LEN};
use crate::refusal::{refuse_if, Refusal};

/// The two parts of a produced key. Together they may have any length, until it is asked.
#[derive(Clone, Copy)]
pub(crate) struct Image<'a> {
    head: &'a [u8],
    rest: &'a [u8],
}

impl<'a> Image<'a> {
    /// The key itself.
    pub(crate) fn same(key: &'a [u8]) -> Self {
        Image {
            head: key,
            rest: &[],
        }
    }

    /// The key with the new prefix in place of the old one: cause 7.
    pub(crate) fn of(key: &'a [u8], old: &[u8], new: &'a [u8]) -> Result<Self, Refusal> {
        let rest = key.strip_prefix(old).ok_or(Refusal::NotPrefix)?;
        Ok(Image { head: new, rest })
    }

    pub(crate) fn len(&self) -> usize {
        self.head.len() + self.rest.len()
    }

    /// "A produced key passes 64 bytes": cause 8.
    pub(crate) fn fit(&self) -> Result<(), Refusal> {
        refuse_if(self.len() > MAX_LEN, Refusal::TooLong)
    }

    pub(crate) fn to_vec(self) -> Vec<u8> {
        [self.head, self.rest].concat()
    }

    /// Writes the key's bytes at the head of `dest` and answers their number: cause 10.
    pub(crate) fn put(&self, dest: &mut [u8]) -> Result<usize, Refusal> {
        let written = dest.get_mut(..self.len()).ok_or(Refusal::NoRoom)?;
        let (head, rest) = written.split_at_mut(self.head.len());
        head.copy_from_slice(self.head);
        rest.copy_from_slice(self.rest);
        Ok(self.len())
    }

    /// Writes the key's record at the head of `dest`: cause 10.
    pub(crate) fn put_record(&self, dest: &mut [u8]) -> Result<(), Refusal> {
        self.put(blank(self.len() as u16, dest)?)?;
        Ok(())
    }
}
