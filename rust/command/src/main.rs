//! The command `joistdenim`.
use command::{run, FileId, StandardFiles, Streams};
use std::fs::File;
use std::io::{stderr, stdin, stdout, IsTerminal, Write};
use std::os::fd::{AsFd, BorrowedFd};
use std::process::ExitCode;

fn main() -> ExitCode {
    let terminal = stdout().is_terminal();
    let is_set = |name| std::env::var_os(name).is_some_and(|value| !value.is_empty());
    let is_dumb = std::env::var_os("TERM").is_none_or(|value| value == "dumb");
    let mut streams = Streams {
        input: &mut stdin().lock(),
        output: &mut *output(),
        errors: &mut stderr().lock(),
        terminal,
        colour: terminal && !is_dumb && !is_set("NO_COLOR"),
        errors_terminal: stderr().is_terminal(),
        files: StandardFiles {
            input: file_of(stdin().as_fd()),
            output: file_of(stdout().as_fd()),
        },
    };
    ExitCode::from(run(std::env::args_os().skip(1), &mut streams))
}

/// The file that a stream is.
fn file_of(stream: BorrowedFd) -> Option<FileId> {
    let file = File::from(stream.try_clone_to_owned().ok()?);
    FileId::of(&file.metadata().ok()?)
}

/// Standard output as a file: by itself it says nothing where it can't be written to at all.
fn output() -> Box<dyn Write> {
    match stdout().as_fd().try_clone_to_owned() {
        Ok(output) => Box::new(File::from(output)),
        Err(_) => Box::new(stdout()),
    }
}
