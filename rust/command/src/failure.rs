//! Why the command ends without doing its work.
use joistdenim::Refusal;
use std::{fmt, io};

/// The exit status, or why there is no result.
pub type Done = Result<u8, Failure>;

pub const REFUSED: u8 = 1;
pub const TROUBLE: u8 = 2;

/// The library's refusal, and what it means here.
#[derive(Debug)]
pub struct Refused {
    pub refusal: Refusal,
    pub text: String,
}

#[derive(Debug)]
pub enum Failure {
    /// Wrong usage, and which help tells more.
    Usage(String, String),
    /// A file can't be read or written.
    File(String),
    Refused(Refused),
    /// Whoever read the output has closed it, and wants no more.
    Closed,
}

impl Failure {
    pub fn usage(text: impl Into<String>, help: impl Into<String>) -> Self {
        Failure::Usage(text.into(), help.into())
    }

    /// A file or stream that can't be read or written.
    pub fn file(name: &str, error: &io::Error) -> Self {
        Failure::File(format!("{name}: {}", reason(error)))
    }

    pub fn refused(refusal: Refusal, text: impl Into<String>) -> Self {
        let text = text.into();
        Failure::Refused(Refused { refusal, text })
    }

    pub fn status(&self) -> u8 {
        match self {
            Failure::Usage(..) | Failure::File(_) => TROUBLE,
            Failure::Refused(..) => REFUSED,
            Failure::Closed => 0,
        }
    }
}

/// What went wrong in words, without the system's number for it.
pub fn reason(error: &io::Error) -> String {
    let text = error.to_string();
    let number = error.raw_os_error().unwrap_or_default();
    let words = text.strip_suffix(&format!(" (os error {number})"));
    words.unwrap_or(&text).into()
}

impl From<Refused> for Failure {
    fn from(refused: Refused) -> Self {
        Failure::Refused(refused)
    }
}

/// What is said on standard error, with the end of its line.
impl fmt::Display for Failure {
    fn fmt(&self, f: &mut fmt::Formatter<'_>) -> fmt::Result {
        match self {
            Failure::Usage(text, help) => {
                let mark = if text.ends_with('?') { "" } else { ";" };
                writeln!(f, "joistdenim: {text}{mark} 'joistdenim {help}' tells more")
            }
            Failure::File(text) => writeln!(f, "joistdenim: {text}"),
            Failure::Refused(Refused { refusal, text }) => {
                writeln!(f, "refused {}: {text}", refusal.number())
            }
            Failure::Closed => Ok(()),
        }
    }
}
