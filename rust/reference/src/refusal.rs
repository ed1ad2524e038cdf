//! The refusals by number. Each call has an order of its causes, which isn't that of the numbers:
//! `lib.rs` tells it.

#[derive(Clone, Copy, Debug, PartialEq, Eq)]
pub enum Refusal {
    Shape = 1,
    Malformed = 2,
    Unsorted = 3,
    EmptyPrefix = 4,
    OutOfRange = 5,
    NoSuchSlot = 6,
    NotPrefix = 7,
    TooLong = 8,
    NotBelow = 9,
    NoRoom = 10,
    AlreadyPivot = 11,
    TooManyPivots = 12,
    NotMeeting = 13,
    EntriesUnsorted = 14,
    WrongIndex = 15,
}

impl Refusal {
    pub fn number(self) -> u32 {
        self as u32
    }
}

/// Refuses where the cause applies.
pub(crate) fn refuse_if(applies: bool, refusal: Refusal) -> Result<(), Refusal> {
    if applies {
        Err(refusal)
    } else {
        Ok(())
    }
}
