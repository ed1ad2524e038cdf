//! Why a text can't be read.
use crate::bucket::Number;
use crate::key::Key;
use crate::refusal::Refusal;
use crate::text::TextError;
use std::error::Error;
use std::fmt;

/// Why a text isn't the list of a table, or a bucket, and where: the line and the column, in
/// characters, both from 1.
#[derive(Clone, PartialEq, Eq)]
pub struct ListError {
    pub(crate) place: Place,
    pub(crate) fault: Fault,
}

/// A place in a text.
#[derive(Clone, Copy, Debug, Default, PartialEq, Eq)]
pub struct Place {
    pub line: usize,
    pub column: usize,
}

#[derive(Clone, Debug, PartialEq, Eq)]
pub enum Fault {
    Text(TextError),
    /// By the library: what was read is no table, or no bucket; and what that means here.
    Refused(Refusal, String),
    /// The line of a refused input.
    NoList,
    /// So many fields in place of five.
    Fields(usize),
    /// A field too many in the short form.
    ThirdField,
    /// Spaces between what is replaced and the edge.
    Parted,
    /// What is replaced or the edge is missing beside its sign.
    NoSide,
    /// Something replaced, and no edge.
    ReplacedByNone,
    /// What is replaced stands before the edge, as in the short form.
    ReplacedInList,
    /// This is another slot.
    Slot(usize),
    MaxLeft,
    /// The next slot begins here.
    Right(Key),
    /// The keys of the slot share this; and which edge does what the text says, if one does.
    Shared(Key, String),
    AfterEnd,
    EndWithEdge,
    NoEnd,
    /// So many fields in place of a key and a number.
    Entry(usize),
    Number,
}

const NO_SIDE: &str =
    "before > stands what is replaced, behind it the edge, which is . if it is empty";
const REPLACED_BY_NONE: &str =
    "without an edge nothing is replaced: write - alone, or . for the empty edge";
const REPLACED_IN_LIST: &str =
    "in a list the field shared says what is replaced: write the edge alone";
const END_WITH_EDGE: &str =
    "the last line is the end of the table: a key or max alone, without an edge";
const NO_END: &str = "the last line is missing, with the end of the table: a key or max alone";
const AFTER_END: &str = "the line before has no edge and is the end, so no line follows";

impl ListError {
    /// The line, from 1.
    pub fn line(&self) -> usize {
        self.place.line
    }

    /// The column in characters, from 1.
    pub fn column(&self) -> usize {
        self.place.column
    }

    /// The library's refusal of what was read, where that is the reason: 1 for too few or too many
    /// pivots or entries, 2 for a key over 64 bytes, 3, 4.
    pub fn refusal(&self) -> Option<Refusal> {
        match &self.fault {
            Fault::Text(error) => error.refusal(),
            Fault::Refused(refusal, _) => Some(*refusal),
            _ => None,
        }
    }

    /// What is wrong, without the place and the refusal's number.
    pub fn reason(&self) -> String {
        match &self.fault {
            Fault::Text(error) => error.to_string(),
            Fault::Refused(_, meaning) => meaning.clone(),
            Fault::NoList => "this says that a table was refused, and is no list".into(),
            Fault::Fields(count) => {
                format!("a line of the list has 5 fields, and this has {count}")
            }
            Fault::ThirdField => "a line has a left bound and an edge, or the end alone".into(),
            Fault::Parted => "no space stands beside >: write it as 41>43".into(),
            Fault::NoSide => NO_SIDE.into(),
            Fault::ReplacedByNone => REPLACED_BY_NONE.into(),
            Fault::ReplacedInList => REPLACED_IN_LIST.into(),
            Fault::Slot(number) => format!("this is slot {number}"),
            Fault::MaxLeft => "max can only be the end of the table".into(),
            Fault::Right(left) => {
                format!("the next slot begins with {left}, so this one ends there")
            }
            Fault::Shared(shared, edge) => {
                format!("what the keys of this slot share is {shared}{edge}")
            }
            Fault::AfterEnd => AFTER_END.into(),
            Fault::EndWithEdge => END_WITH_EDGE.into(),
            Fault::NoEnd => NO_END.into(),
            Fault::Entry(count) => {
                format!("a line of a bucket has 2 fields, a key and a number, and this has {count}")
            }
            Fault::Number => format!("a number goes from 0 to {}", Number::MAX),
        }
    }
}

impl fmt::Display for ListError {
    fn fmt(&self, f: &mut fmt::Formatter<'_>) -> fmt::Result {
        let Place { line, column } = self.place;
        write!(f, "line {line}, column {column}: ")?;
        if let Some(refusal) = self.refusal() {
            write!(f, "refusal {}: ", refusal.number())?;
        }
        f.write_str(&self.reason())
    }
}

impl Error for ListError {}
