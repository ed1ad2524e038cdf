//! How tests run the command: in memory, as a program, or as a line of a shell; and folders for
//! their files.
#![allow(dead_code)]
pub mod shown;

use command::{run, Streams};
use joistdenim::MAX_PIVOTS;
use std::ffi::OsString;
use std::fs;
use std::path::{Path, PathBuf};
use std::process::{Command, Output};
use std::sync::atomic::{AtomicUsize, Ordering};

/// T's list.
pub const LIST_OF_T: &str =
    "slot\tleft\tright\tshared\tedge\n0\t4130\t4135\t41\t43\n1\t4135\t42\t41\t-\n";

/// T in the short form.
pub const SHORT_T: &str = "4130 43\n4135 -\n42\n";

/// What the command left: its status, standard output and standard error.
#[derive(Debug, PartialEq)]
pub struct Ran {
    pub status: u8,
    pub output: Vec<u8>,
    pub errors: String,
}

/// With these arguments, parted by spaces, and this on standard input.
pub fn ran(arguments: &str, input: impl AsRef<[u8]>) -> Ran {
    ran_in(arguments, input, false, false)
}

pub fn ran_in(arguments: &str, input: impl AsRef<[u8]>, terminal: bool, colour: bool) -> Ran {
    let words = arguments.split(' ').filter(|word| !word.is_empty());
    ran_words(words.map(OsString::from), input, terminal, colour)
}

/// With these arguments as they stand, which may have spaces or be empty.
pub fn ran_each(words: &[&str], input: impl AsRef<[u8]>) -> Ran {
    ran_words(words.iter().map(OsString::from), input, false, false)
}

pub fn ran_words(
    words: impl Iterator<Item = OsString>,
    input: impl AsRef<[u8]>,
    terminal: bool,
    colour: bool,
) -> Ran {
    let (mut output, mut errors) = (vec![], vec![]);
    let status = run(
        words,
        &mut Streams {
            input: &mut input.as_ref(),
            output: &mut output,
            errors: &mut errors,
            terminal,
            colour,
            errors_terminal: terminal,
            files: Default::default(),
        },
    );
    let errors = String::from_utf8(errors).expect("messages are text");
    Ran {
        status,
        output,
        errors,
    }
}

impl Ran {
    /// Status 0 and nothing on standard error: the output.
    #[track_caller]
    pub fn done(self) -> Vec<u8> {
        assert_eq!((self.status, &self.errors[..]), (0, ""));
        self.output
    }

    /// Status 0 and nothing on standard error: the output as text.
    #[track_caller]
    pub fn text(self) -> String {
        String::from_utf8(self.done()).expect("text")
    }

    /// This status, nothing on standard output, and this line on standard error.
    #[track_caller]
    pub fn failed(&self, status: u8, line: &str) {
        let output = String::from_utf8_lossy(&self.output);
        assert_eq!((self.status, &*output), (status, ""));
        assert_eq!(self.errors, format!("{line}\n"));
    }
}

/// Long texts that must be the same: where they aren't, the first lines that differ.
#[track_caller]
pub fn same(got: &str, wanted: &str) {
    let lines = got.lines().zip(wanted.lines());
    for (number, (got, wanted)) in lines.enumerate() {
        assert_eq!(got, wanted, "line {}", number + 1);
    }
    assert_eq!(got.lines().count(), wanted.lines().count());
    assert_eq!(got.len(), wanted.len());
}

/// The table of a text, as the command makes it.
#[track_caller]
pub fn table(text: &str) -> Vec<u8> {
    ran("table", text).done()
}

/// The list of a table, likewise.
#[track_caller]
pub fn list(table: &[u8]) -> String {
    ran("list -", table).text()
}

/// A folder that is removed when the test ends.
pub struct Folder(PathBuf);

impl Folder {
    pub fn new() -> Self {
        static COUNT: AtomicUsize = AtomicUsize::new(0);
        let number = COUNT.fetch_add(1, Ordering::Relaxed);
        let name = format!("joistdenim-{}-{number}", std::process::id());
        let path = std::env::temp_dir().join(name);
        fs::create_dir(&path).expect("a new folder");
        Folder(path)
    }

    pub fn path(&self) -> &Path {
        &self.0
    }

    pub fn at(&self, name: &str) -> String {
        self.0.join(name).to_str().expect("a path of text").into()
    }

    /// A file with these bytes; its path.
    pub fn with(&self, name: &str, bytes: impl AsRef<[u8]>) -> String {
        fs::write(self.at(name), bytes).expect("a file");
        self.at(name)
    }

    /// The names of what is in it, in order.
    pub fn names(&self) -> Vec<String> {
        let entries = fs::read_dir(&self.0).expect("the folder");
        let name = |entry: std::io::Result<fs::DirEntry>| entry.expect("an entry").file_name();
        let mut names: Vec<_> = entries.map(name).collect();
        names.sort();
        let text = |name: OsString| name.into_string().expect("a name of text");
        names.into_iter().map(text).collect()
    }
}

impl Drop for Folder {
    fn drop(&mut self) {
        let _ = fs::remove_dir_all(&self.0);
    }
}

/// The repository's root.
pub fn root() -> PathBuf {
    let root = Path::new(env!("CARGO_MANIFEST_DIR")).join("../..");
    root.canonicalize().expect("the root")
}

/// The text of a file of the repository.
pub fn document(path: &str) -> String {
    fs::read_to_string(root().join(path)).expect(path)
}

/// The command as a program.
pub fn program() -> Command {
    Command::new(env!("CARGO_BIN_EXE_joistdenim"))
}

/// A line of bash in a folder, where `joistdenim` is the command.
pub fn shell(line: &str, folder: &Path) -> Output {
    let program = Path::new(env!("CARGO_BIN_EXE_joistdenim"));
    let mut path = OsString::from(program.parent().expect("it is in a folder"));
    path.push(":");
    path.push(std::env::var_os("PATH").unwrap_or_default());
    let mut bash = Command::new("bash");
    bash.args(["-c", line]).current_dir(folder);
    bash.env("PATH", path).env_remove("NO_COLOR");
    bash.output().expect("bash runs")
}

/// A folder with T as t.table, and 64 pivots as large.table, which has more than a thousand bytes.
pub fn folder() -> Folder {
    let folder = Folder::new();
    folder.with("t.table", table(SHORT_T));
    let lines: String = (0..MAX_PIVOTS - 1)
        .map(|i| format!("41{i:02x} -\n"))
        .collect();
    folder.with("large.table", table(&format!("{lines}42\n")));
    folder
}

pub fn errors(output: &Output) -> String {
    String::from_utf8(output.stderr.clone()).expect("messages are text")
}

/// This status and line on standard error, and nothing on standard output.
#[track_caller]
pub fn failed(output: &Output, status: i32, line: &str) {
    assert_eq!(output.status.code(), Some(status));
    assert_eq!(errors(output), format!("{line}\n"));
    assert_eq!(output.stdout, b"");
}

#[track_caller]
pub fn quiet(output: &Output) {
    assert_eq!((output.status.code(), errors(output)), (Some(0), "".into()));
}
