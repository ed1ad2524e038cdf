//! Groups for the command, run in this process: what it reads, writes and answers, against the
//! reference.
mod blocks;
mod buckets;
mod changes;
mod joins;
mod lists;
mod rows;
mod show;
mod values;
mod wanted;

pub use lists::{EveryTable, Seen};

use crate::call::Hex;
use crate::group::{test, Group, Test};
use ::command::{run, Streams};
use std::ffi::OsStr;
use std::fmt;
use wanted::Wanted;

pub fn tests() -> Vec<Test> {
    let mut tests = lists::tests();
    tests.extend([
        test("command: show --tsv, small tables", rows::small),
        test("command: show --tsv, random", |group| {
            rows::random(group, 3_000)
        }),
        test("command: show --tsv, random with faults", |group| {
            rows::spoiled(group, 10_000)
        }),
        test("command: show, small tables", blocks::small),
        test("command: show, random", |group| blocks::random(group, 600)),
        test("command: cut and insert, small tables", changes::small),
        test("command: cut and insert, random", |group| {
            changes::random(group, 10_000)
        }),
        test("command: cut and insert, random with faults", |group| {
            changes::spoiled(group, 30_000)
        }),
        test("command: join, random", |group| joins::random(group, 200)),
        test("command: join, random around 64 pivots", |group| {
            joins::around_most(group, 200)
        }),
        test("command: join, random with faults", |group| {
            joins::spoiled(group, 400)
        }),
    ]);
    tests.extend(buckets::tests());
    tests.extend(values::tests());
    tests
}

/// What a run of the command left.
pub struct Ran {
    pub status: u8,
    pub output: Vec<u8>,
    pub errors: String,
}

/// One run with this standard input. Its output is no terminal.
pub fn command(arguments: &[impl AsRef<OsStr>], mut input: &[u8]) -> Ran {
    let (mut output, mut errors) = (vec![], vec![]);
    let mut streams = Streams {
        input: &mut input,
        output: &mut output,
        errors: &mut errors,
        terminal: false,
        colour: false,
        errors_terminal: false,
        files: Default::default(),
    };
    let arguments = arguments.iter().map(|word| word.as_ref().to_os_string());
    let status = run(arguments, &mut streams);
    Ran {
        status,
        output,
        errors: String::from_utf8_lossy(&errors).into_owned(),
    }
}

impl Ran {
    /// The numbers of the refusals told, if nothing else is.
    pub fn refusals(&self) -> Option<Vec<u32>> {
        let number = |line: &str| {
            let refusal = line.strip_prefix("refused ")?.strip_suffix('\n')?;
            refusal.split_once(": ")?.0.parse().ok()
        };
        self.errors.split_inclusive('\n').map(number).collect()
    }

    /// Whether it left what is wanted and nothing else; where it is done, `said` on standard error.
    pub fn is(&self, wanted: &Wanted, said: &str) -> bool {
        match wanted {
            Ok(output) => self.status == 0 && self.output == *output && self.errors == said,
            Err(number) => {
                let refused = self.refusals() == Some(vec![*number]);
                self.status == 1 && self.output.is_empty() && refused
            }
        }
    }
}

impl fmt::Display for Ran {
    fn fmt(&self, f: &mut fmt::Formatter<'_>) -> fmt::Result {
        let (status, output, errors) = (self.status, Hex(&self.output), &self.errors);
        write!(f, "status {status}, output {output}, errors {errors:?}")
    }
}

/// A run as a text for where it fails.
pub fn text(arguments: &[impl fmt::Debug], input: &[u8], ran: &Ran) -> String {
    format!("{arguments:?} of {}: {ran}", Hex(input))
}

/// One run that must leave what is wanted and nothing else.
pub fn expect<T: AsRef<OsStr> + fmt::Debug>(
    group: &mut Group,
    arguments: &[T],
    input: &[u8],
    wanted: &Wanted,
) -> Ran {
    expect_saying(group, arguments, input, wanted, "")
}

/// What `expect` asks, and where the command is done it must say this on standard error.
pub fn expect_saying<T: AsRef<OsStr> + fmt::Debug>(
    group: &mut Group,
    arguments: &[T],
    input: &[u8],
    wanted: &Wanted,
    said: &str,
) -> Ran {
    let ran = command(arguments, input);
    group.check(ran.is(wanted, said), || {
        let wanted = wanted::text(wanted, said);
        format!("{}; wanted {wanted}", text(arguments, input, &ran))
    });
    ran
}
