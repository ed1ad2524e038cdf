//! Keys, elements and edges as the list of a table has them: hexadecimal, or a mark.
use crate::key::Key;
use crate::refusal::Refusal;
use crate::MAX_LEN;
use std::error::Error;
use std::fmt;

/// What stands in place of digits.
pub const EMPTY_KEY: &str = "-";
pub const MAX: &str = "max";
pub const NO_EDGE: &str = "-";
pub const EMPTY_EDGE: &str = ".";

const DIGITS: &[u8; 16] = b"0123456789abcdef";

/// Why a text is no key, element or edge.
#[derive(Clone, Copy, PartialEq, Eq)]
#[non_exhaustive]
pub enum TextError {
    /// After so many characters comes one that is no hexadecimal digit.
    NoDigit {
        /// How many characters come before it.
        place: usize,
        /// The character.
        found: char,
    },
    /// After so many digits the second one of a byte is missing.
    HalfByte {
        /// How many characters come before the missing one.
        place: usize,
    },
    /// By the library: a key of so many bytes, over 64.
    Refused {
        /// The library's refusal, 2.
        refusal: Refusal,
        /// The bytes of the key.
        length: usize,
    },
}

impl TextError {
    /// After how many characters of the text it shows.
    pub fn place(&self) -> usize {
        match *self {
            TextError::NoDigit { place, .. } | TextError::HalfByte { place } => place,
            TextError::Refused { .. } => 0,
        }
    }

    /// The library's refusal, where that is the reason.
    pub fn refusal(&self) -> Option<Refusal> {
        match *self {
            TextError::Refused { refusal, .. } => Some(refusal),
            _ => None,
        }
    }
}

impl fmt::Display for TextError {
    fn fmt(&self, f: &mut fmt::Formatter<'_>) -> fmt::Result {
        match self {
            TextError::NoDigit { found, .. } => write!(f, "{found:?} is no hexadecimal digit"),
            TextError::HalfByte { .. } => write!(f, "a byte has two digits, and the last has one"),
            TextError::Refused { length, .. } => write!(
                f,
                "a key has at most {MAX_LEN} bytes, and this one has {length}"
            ),
        }
    }
}

impl Error for TextError {}

/// The key of hexadecimal digits.
pub fn key_of(digits: &str) -> Result<Key, TextError> {
    let bytes = from_hex(digits)?;
    Key::try_from(&bytes[..]).map_err(|refusal| TextError::Refused {
        refusal,
        length: bytes.len(),
    })
}

/// The bytes of hexadecimal digits of either case, as many as there are.
pub fn from_hex(digits: &str) -> Result<Vec<u8>, TextError> {
    let mut bytes = Vec::with_capacity(digits.len() / 2);
    let mut high = None;
    for (place, found) in digits.chars().enumerate() {
        let no_digit = TextError::NoDigit { place, found };
        let digit = found.to_digit(16).ok_or(no_digit)? as u8;
        match high.take() {
            None => high = Some(digit << 4),
            Some(high) => bytes.push(high | digit),
        }
    }
    match high {
        None => Ok(bytes),
        Some(_) => Err(TextError::HalfByte {
            place: digits.len(),
        }),
    }
}

/// Whether it stands for max, in letters of either case.
pub fn is_max(text: &str) -> bool {
    text.eq_ignore_ascii_case(MAX)
}

/// The digits of a key, or what stands for the empty one.
pub fn write_key(f: &mut fmt::Formatter<'_>, key: &Key, empty: &str) -> fmt::Result {
    match key.as_bytes() {
        [] => f.pad(empty),
        bytes => {
            let mut digits = [0; 2 * MAX_LEN];
            for (digits, byte) in digits.chunks_exact_mut(2).zip(bytes) {
                digits[0] = DIGITS[usize::from(byte >> 4)];
                digits[1] = DIGITS[usize::from(byte & 0xF)];
            }
            let digits = &digits[..2 * bytes.len()];
            f.pad(std::str::from_utf8(digits).expect("digits are ASCII"))
        }
    }
}
