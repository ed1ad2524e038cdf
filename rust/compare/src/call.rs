//! A call in both implementations, and what it leaves.
use crate::asked::{Asked, Numbers, MOST_DESTS};
use crate::inputs::ENTRY_SIZE;
use crate::lent::{is_as_before, Lent};
use std::fmt;

/// What an argument's slice should hold.
#[derive(Clone, Copy)]
pub enum Kind {
    Key,
    Record,
    Entry,
    Pivots,
    /// The pivots of a second table.
    Child,
    /// The pivots of a table that another is joined with.
    Second,
    Edges,
    Pair,
    Bucket,
    /// The index beside a bucket.
    Index,
    /// The count of the pivots, the pivots and the edges.
    Input,
}

pub struct Call {
    pub name: &'static str,
    /// The slices, in the order of the C function.
    pub arguments: &'static [(&'static str, Kind)],
    pub takes_place: bool,
    /// The destinations, none to two, after the slices.
    pub dests: &'static [&'static str],
    /// How many bytes it writes to each where this is its first answer to what was asked.
    pub written: fn(&Asked, u64) -> [usize; MOST_DESTS],
    pub archive: fn(&Asked, &mut Lent) -> u32,
    /// As C does it: the status returned, the destinations and the numbers changed in place.
    pub reference: fn(&Asked, Dests, &mut Numbers) -> u32,
}

/// A call without a place and destinations.
pub const fn call(
    name: &'static str,
    arguments: &'static [(&'static str, Kind)],
    archive: fn(&Asked, &mut Lent) -> u32,
    reference: fn(&Asked, Dests, &mut Numbers) -> u32,
) -> Call {
    Call {
        name,
        arguments,
        takes_place: false,
        dests: &[],
        written: |_, _| [0; MOST_DESTS],
        archive,
        reference,
    }
}

/// What stands in one destination where the answer counts bytes, records or entries.
pub fn bytes(_: &Asked, count: u64) -> [usize; MOST_DESTS] {
    [count as usize, 0]
}

pub fn records(_: &Asked, count: u64) -> [usize; MOST_DESTS] {
    [66 * count as usize, 0]
}

pub fn entries(_: &Asked, count: u64) -> [usize; MOST_DESTS] {
    [ENTRY_SIZE * count as usize, 0]
}

/// The destinations of one case, to be written to; one that the call doesn't have is empty.
pub type Dests<'a> = [&'a mut [u8]; MOST_DESTS];

/// What a call returned and left.
pub struct Seen<'a> {
    pub status: u32,
    pub numbers: Numbers,
    pub dests: [&'a [u8]; MOST_DESTS],
}

pub struct Hex<'a>(pub &'a [u8]);

impl fmt::Display for Hex<'_> {
    fn fmt(&self, f: &mut fmt::Formatter<'_>) -> fmt::Result {
        write!(f, "[{}]", self.0.len())?;
        self.0.iter().try_for_each(|b| write!(f, "{b:02x}"))
    }
}

impl fmt::Display for Seen<'_> {
    fn fmt(&self, f: &mut fmt::Formatter<'_>) -> fmt::Result {
        write!(f, "returned {}", self.status)?;
        for number in self.numbers {
            match is_as_before(number) {
                true => write!(f, ", number as it was")?,
                false => write!(f, ", number {}", number as i64)?,
            }
        }
        let [first, second] = self.dests;
        write!(f, ", left {}", Hex(first))?;
        match second {
            [] => Ok(()),
            _ => write!(f, " and {}", Hex(second)),
        }
    }
}

impl Call {
    /// The tables of a case, each as pivots and edges; without edges where the call takes none.
    pub fn tables<'a>(&self, asked: &Asked<'a>) -> impl Iterator<Item = [&'a [u8]; 2]> + 'a {
        let (arguments, slices) = (self.arguments, asked.slices);
        let kinds = arguments.iter().map(|(_, kind)| *kind);
        let next = kinds.clone().skip(1).map(Some).chain([None]);
        let tables = kinds.zip(next).enumerate();
        tables.filter_map(move |(at, kinds)| match kinds {
            (Kind::Pivots | Kind::Second, Some(Kind::Edges)) => Some([slices[at], slices[at + 1]]),
            (Kind::Pivots | Kind::Child, _) => Some([slices[at], &[]]),
            _ => None,
        })
    }

    /// The case in full: each argument's name, length and bytes.
    pub fn text(&self, asked: &Asked) -> String {
        let mut parts: Vec<String> = self
            .arguments
            .iter()
            .zip(asked.slices)
            .map(|((name, _), slice)| format!("{name} {}", Hex(slice)))
            .collect();
        if self.takes_place {
            parts.push(format!("place {}", asked.place));
        }
        for (name, len) in self.dests.iter().zip(asked.dests) {
            parts.push(format!("{name} of {len}"));
        }
        format!("{}({})", self.name, parts.join(", "))
    }
}
