//! Why a call refuses.
use std::fmt;

/// The refusals: each with its number and what it means, for any call that has it.
macro_rules! refusals {
    ($($name:ident = $number:literal: $meaning:literal,)*) => {
        /// A refusal. Its number is what the C function returns.
        ///
        /// A program whose `main` answers it says what it means, as `Debug` does here.
        #[derive(Clone, Copy, PartialEq, Eq, Hash)]
        #[non_exhaustive]
        pub enum Refusal {
            $(#[doc = $meaning] $name = $number,)*
        }

        /// In the order of the numbers, which begin with 1.
        const REFUSALS: &[(Refusal, &str)] = &[$((Refusal::$name, $meaning)),*];
    };
}

refusals! {
    Shape = 1: "a slice isn't the records, entries or pair it should be",
    Malformed = 2: "a malformed record or pair, a wrong mark, or a key over 64 bytes",
    Unsorted = 3: "pivots don't rise strictly",
    EmptyPrefix = 4: "an edge where the range's prefix is empty",
    OutOfRange = 5: "a key is outside the table's range",
    NoSuchSlot = 6: "no such slot, or no key at that place",
    NotPrefix = 7: "an old prefix doesn't begin what it must",
    TooLong = 8: "a produced key or prefix passes 64 bytes",
    NotBelow = 9: "left isn't below right, or the last new pivot below the end",
    NoRoom = 10: "a destination is too short",
    AlreadyPivot = 11: "the key is already a pivot",
    TooManyPivots = 12: "the table would have more than 64 pivots",
    NotMeeting = 13: "the tables don't meet: one's last pivot isn't the other's first",
    EntriesUnsorted = 14: "the keys of a bucket don't rise strictly",
    WrongIndex = 15: "an index isn't the one that belongs to table and bucket",
}

impl Refusal {
    /// The number, 1 to 15.
    pub fn number(self) -> u32 {
        self as u32
    }

    /// What it means, for any call that has it.
    pub fn meaning(self) -> &'static str {
        REFUSALS[self as usize - 1].1
    }

    /// What a C function returned: 0 is accepted.
    pub(crate) fn check(number: u32) -> Result<(), Refusal> {
        let Some(place) = (number as usize).checked_sub(1) else {
            return Ok(());
        };
        match REFUSALS.get(place) {
            Some((refusal, _)) => Err(*refusal),
            None => unreachable!("the archive has no refusal {number}"),
        }
    }
}

impl fmt::Display for Refusal {
    fn fmt(&self, f: &mut fmt::Formatter<'_>) -> fmt::Result {
        write!(f, "refusal {}: {}", self.number(), self.meaning())
    }
}

impl std::error::Error for Refusal {}

#[cfg(test)]
mod tests {
    use super::Refusal;

    #[test]
    fn each_number_is_its_refusal() {
        assert_eq!(Refusal::check(0), Ok(()));
        for number in 1..=15 {
            assert_eq!(Refusal::check(number).unwrap_err().number(), number);
        }
    }
}
