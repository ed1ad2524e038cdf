//! A result of the reference as the boundary tells it: the status, and the number behind the first
//! pointer changed in place.
use crate::asked::Numbers;
use reference::Refusal;

/// 0 and the number, or the refusal alone.
pub fn tell(result: Result<u64, Refusal>, numbers: &mut Numbers) -> u32 {
    match result {
        Ok(value) => {
            numbers[0] = value;
            0
        }
        Err(refusal) => refusal.number(),
    }
}

/// "Yes" and "no" are 1 and 0.
pub fn yes(result: Result<bool, Refusal>, numbers: &mut Numbers) -> u32 {
    tell(result.map(u64::from), numbers)
}

/// A slot, a length, or how many records were written.
pub fn count(result: Result<usize, Refusal>, numbers: &mut Numbers) -> u32 {
    tell(result.map(|count| count as u64), numbers)
}

/// A call without an answer behind a pointer: the numbers stay as they were.
pub fn status(result: Result<(), Refusal>) -> u32 {
    result.map_or_else(Refusal::number, |()| 0)
}
