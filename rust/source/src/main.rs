//! The source itself, run beside the archive; `dafny/run` says how. From the root of the repository:
//!
//! - `source program DIR` makes the program of docs/src in a folder, and tells each changed line;
//! - `source program DIR N` makes it with the wrong body N of dafny/wrong_bodies.txt in it;
//! - `source wrong` checks that file, and tells each wrong body in a line;
//! - `source compare` reads what the program prints, and holds the archive against it.
//!
//! The status is 1 where something differs, and 2 where nothing could be looked at.
mod answers;
mod calls;
mod comparison;
mod declarations;
mod functions;
mod inputs;
mod program;
mod report;
mod words;
mod wrong;

use std::process::ExitCode;

fn main() -> ExitCode {
    let args: Vec<String> = std::env::args().skip(1).collect();
    let args: Vec<&str> = args.iter().map(String::as_str).collect();
    let done = match args[..] {
        ["program", dir] => report::program(dir),
        ["program", dir, number] => report::wrong_program(dir, number),
        ["wrong"] => report::wrong_bodies(),
        ["compare"] => report::compare(std::io::stdin().lock()),
        _ => Err("source program DIR [N] | wrong | compare".to_string()),
    };
    match done {
        Ok(true) => ExitCode::SUCCESS,
        Ok(false) => ExitCode::from(1),
        Err(error) => {
            eprintln!("source: {error}");
            ExitCode::from(2)
        }
    }
}
