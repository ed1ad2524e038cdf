//! What is read and what is written are two files, unless to change the one is what the command is
//! for.
use crate::arguments::{Arguments, STREAM};
use crate::failure::Failure;
use crate::files::name_of;
use crate::operands::Read;
use crate::Streams;
use std::ffi::OsStr;
use std::fs::{self, Metadata};
use std::os::unix::fs::MetadataExt;

/// A file, whatever name leads to it.
#[derive(Clone, Copy, Debug, PartialEq)]
pub struct FileId {
    device: u64,
    inode: u64,
}

impl FileId {
    /// Of a file alone: to write to a terminal or a pipe loses nothing that can be read from it.
    pub fn of(found: &Metadata) -> Option<Self> {
        found.is_file().then(|| FileId {
            device: found.dev(),
            inode: found.ino(),
        })
    }

    fn at(path: &OsStr) -> Option<Self> {
        fs::metadata(path).ok().as_ref().and_then(FileId::of)
    }
}

/// The files that the streams are, where they are files.
#[derive(Default)]
pub struct StandardFiles {
    /// Standard input, as in `joistdenim table <t.txt`.
    pub input: Option<FileId>,
    /// Standard output.
    pub output: Option<FileId>,
}

/// Fails where the output is one of the files that are read, before any of them is.
pub fn check(arguments: &Arguments, streams: &Streams) -> Result<(), Failure> {
    let output = match arguments.file() {
        Some(_) if arguments.in_place() => return Ok(()),
        Some(path) => FileId::at(path),
        None => streams.files.output,
    };
    let id = |read: &Read| match read.path == STREAM {
        true => streams.files.input,
        false => FileId::at(read.path),
    };
    let lost = |read: &Read| output.is_some() && id(read) == output;
    match arguments.reads().into_iter().find(lost) {
        Some(read) => Err(Failure::File(would_be_lost(&read, arguments))),
        None => Ok(()),
    }
}

fn would_be_lost(read: &Read, arguments: &Arguments) -> String {
    let Read { path, holds } = read;
    let read = format!("{}, the {holds} that is read", name_of(path));
    match arguments.file().map(name_of) {
        Some(name) => format!("-o {name} would replace {read}: give -o another file"),
        None => {
            let or = if arguments.in_place() {
                ", or give -o"
            } else {
                ""
            };
            format!("standard output is the same file as {read}: write to another file{or}")
        }
    }
}
