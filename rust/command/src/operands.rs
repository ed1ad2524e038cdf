//! The arguments that are no options: what each stands for, and which are files that are read.
use crate::arguments::STREAM;
use crate::pages::Page;
use std::ffi::{OsStr, OsString};

pub enum Operand {
    /// One of these words.
    Word(&'static [&'static str]),
    /// A file that is read, and what it holds.
    File(&'static str),
    /// Such a file, or standard input where there is no argument.
    FileOrInput(&'static str),
    Key,
    /// A key, or in its place standard input with keys.
    KeyOrInput,
}

/// A file that is read, under the name that it was given, and what it holds.
pub struct Read<'a> {
    pub path: &'a OsStr,
    pub holds: &'static str,
}

impl Operand {
    /// What is read from the file that this argument names, if it names one.
    fn holds(&self, argument: &OsStr) -> Option<&'static str> {
        match self {
            Operand::File(holds) | Operand::FileOrInput(holds) => Some(holds),
            Operand::KeyOrInput if argument == STREAM => Some("list of keys"),
            Operand::KeyOrInput | Operand::Key | Operand::Word(_) => None,
        }
    }
}

/// The files that are read where a command has these arguments.
pub fn reads<'a>(page: &Page, arguments: &'a [OsString]) -> Vec<Read<'a>> {
    if let ([], [Operand::FileOrInput(holds)]) = (arguments, page.operands) {
        let path = OsStr::new(STREAM);
        return vec![Read { path, holds }];
    }
    let last = page.operands.last().filter(|_| page.repeats());
    let operands = page.operands.iter().chain(last.into_iter().cycle());
    let read = |(path, operand): (&'a OsString, &Operand)| {
        let holds = operand.holds(path)?;
        Some(Read { path, holds })
    };
    arguments.iter().zip(operands).filter_map(read).collect()
}
