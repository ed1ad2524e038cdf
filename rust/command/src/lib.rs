//! The command `joistdenim`: tables, keys and buckets for people. It reads and prints; every
//! answer is the library's.
#![forbid(unsafe_code)]

mod apart;
mod arguments;
mod bucket;
mod change;
mod check;
mod completions;
mod failure;
mod files;
mod help;
mod keys;
mod kind;
mod list;
mod man;
mod nearest;
mod operands;
mod output;
mod pages;
mod refused;
mod show;
mod table;

pub use apart::{FileId, StandardFiles};
use failure::{Done, Failure};
use pages::{page, Page, ABOUT, OPTIONS, PAGES};
use std::ffi::OsString;
use std::io::{BufRead, Write};

/// What the command reads and writes beside files.
pub struct Streams<'a> {
    pub input: &'a mut dyn BufRead,
    pub output: &'a mut dyn Write,
    pub errors: &'a mut dyn Write,
    /// Whether the output is a terminal.
    pub terminal: bool,
    /// Whether it takes colour.
    pub colour: bool,
    /// Whether standard error is a terminal.
    pub errors_terminal: bool,
    /// Which files are read and written through them.
    pub files: StandardFiles,
}

/// Runs the command with these arguments, and answers its exit status.
pub fn run(arguments: impl Iterator<Item = OsString>, streams: &mut Streams) -> u8 {
    let arguments: Vec<OsString> = arguments.collect();
    match dispatch(&arguments, streams) {
        Ok(status) => status,
        Err(failure) => {
            // Where even this can't be said, the status still tells.
            let _ = write!(streams.errors, "{failure}");
            failure.status()
        }
    }
}

fn dispatch(arguments: &[OsString], streams: &mut Streams) -> Done {
    let Some((first, rest)) = arguments.split_first() else {
        return Err(Failure::usage("a command is missing", "--help"));
    };
    let first = first.to_string_lossy();
    match &*first {
        "-h" | "--help" | "help" => asked_help(rest, streams),
        "-V" | "--version" | "--man" if !rest.is_empty() => {
            Err(Failure::usage(format!("{first} stands alone"), "--help"))
        }
        "-V" | "--version" => output::print(streams, version().as_bytes()),
        "--man" => output::print(streams, man::man().as_bytes()),
        "--completions" => asked_completions(rest, streams),
        name => match page(name) {
            Some(page) => of_page(page, rest, streams),
            None => Err(no_command(name)),
        },
    }
}

fn no_command(name: &str) -> Failure {
    let options = OPTIONS.iter().map(|(option, _)| *option);
    let names = PAGES.iter().map(|page| page.name).chain(options);
    let hint = nearest::hint(name, names);
    Failure::usage(format!("there is no command {name:?}{hint}"), "--help")
}

/// The day of this version, for the manual page.
const DATE: &str = "2026-11-18";

fn version() -> String {
    format!("joistdenim {}\n", env!("CARGO_PKG_VERSION"))
}

/// All commands, or the one that is named.
fn asked_help(names: &[OsString], streams: &mut Streams) -> Done {
    let Some(name) = names.first() else {
        return output::print(streams, help::all(ABOUT, PAGES).as_bytes());
    };
    let name = name.to_string_lossy();
    match page(&name) {
        Some(page) => output::print(streams, help::one(page).as_bytes()),
        None => Err(no_command(&name)),
    }
}

fn asked_completions(shells: &[OsString], streams: &mut Streams) -> Done {
    let text = match shells {
        [shell] => shell.to_str().and_then(completions::of),
        _ => None,
    };
    let wrong = || Failure::usage("--completions takes bash, zsh or fish", "--help");
    output::print(streams, text.ok_or_else(wrong)?.as_bytes())
}

fn of_page(page: &'static Page, rest: &[OsString], streams: &mut Streams) -> Done {
    let arguments = arguments::read(page, rest)?;
    if arguments.help {
        return output::print(streams, help::one(page).as_bytes());
    }
    apart::check(&arguments, streams)?;
    (page.run)(&arguments, streams)
}
