//! The arguments of a command: options, and the rest in turn.
use crate::failure::Failure;
use crate::keys;
use crate::nearest;
use crate::operands::{reads, Read};
use crate::pages::Page;
use std::ffi::{OsStr, OsString};
use std::os::unix::ffi::OsStrExt;

/// Standard input, or standard output, in place of a file.
pub const STREAM: &str = "-";

pub struct Arguments {
    page: &'static Page,
    flags: Vec<&'static str>,
    pub help: bool,
    output: Option<OsString>,
    pub rest: Vec<OsString>,
}

/// The options are those of the page, in any place before a `--`.
pub fn read(page: &'static Page, words: &[OsString]) -> Result<Arguments, Failure> {
    let mut arguments = Arguments {
        page,
        flags: vec![],
        help: false,
        output: None,
        rest: vec![],
    };
    let mut words = words.iter();
    while let Some(word) = words.next() {
        match &*word.to_string_lossy() {
            "--" => {
                arguments.rest.extend(words.cloned());
                break;
            }
            "-h" | "--help" => arguments.help = true,
            option if option.starts_with('-') && option != STREAM => {
                arguments.option(word, &mut words)?;
            }
            _ => arguments.rest.push(word.clone()),
        }
    }
    Ok(arguments)
}

/// The file that an option for the output is joined with, or none where it is the next word.
fn output_option(word: &OsStr) -> Option<Option<&OsStr>> {
    if word == "-o" || word == "--output" {
        return Some(None);
    }
    let word = word.as_bytes();
    let long = word.strip_prefix(b"--output=");
    let joined = long.or_else(|| word.strip_prefix(b"-o"))?;
    Some(Some(OsStr::from_bytes(joined)))
}

impl Arguments {
    fn option<'a>(
        &mut self,
        word: &'a OsStr,
        words: &mut impl Iterator<Item = &'a OsString>,
    ) -> Result<(), Failure> {
        let option = word.to_string_lossy();
        match output_option(word).filter(|_| self.page.writes()) {
            Some(_) if option.starts_with("-o=") => {
                Err(self.wrong("no = stands behind -o: write -oFILE or --output=FILE"))
            }
            Some(Some(file)) => self.write_to(file),
            Some(None) => self.write_to(words.next().map_or(OsStr::new(""), OsString::as_os_str)),
            None => {
                let flag = self.page.flag(&option);
                self.flags.push(flag.ok_or_else(|| self.unknown(&option))?);
                Ok(())
            }
        }
    }

    fn unknown(&self, option: &str) -> Failure {
        let name = option.split('=').next().unwrap_or(option);
        let names = self.page.all_options().map(|(option, _)| option);
        let hint = nearest::hint(name, names);
        self.wrong(format!("there is no option {option:?}{hint}"))
    }

    fn write_to(&mut self, file: &OsStr) -> Result<(), Failure> {
        if file.is_empty() {
            return Err(self.wrong("-o needs a file"));
        }
        match self.output.replace(file.into()) {
            None => Ok(()),
            Some(_) => Err(self.wrong("-o is given twice")),
        }
    }

    /// The files that are read.
    pub fn reads(&self) -> Vec<Read<'_>> {
        reads(self.page, &self.rest)
    }

    /// Whether the output may be what was read.
    pub fn in_place(&self) -> bool {
        (self.page.in_place)(self)
    }

    pub fn has(&self, flag: &str) -> bool {
        self.flags.contains(&flag)
    }

    /// The file that is written in place of standard output.
    pub fn file(&self) -> Option<&OsStr> {
        let path = self.output.as_deref();
        path.filter(|path| *path != STREAM)
    }

    /// Wrong usage of this command.
    pub fn wrong(&self, text: impl Into<String>) -> Failure {
        Failure::usage(text, format!("{} --help", self.page.name))
    }

    /// Exactly so many arguments.
    pub fn exactly<const N: usize>(&self, wanted: &str) -> Result<[&OsStr; N], Failure> {
        let rest: Vec<&OsStr> = self.rest.iter().map(OsString::as_os_str).collect();
        let name = self.page.name;
        let wrong = |_| self.wrong(format!("{name} takes {wanted}"));
        rest.try_into().map_err(wrong)
    }

    /// Standard input may stand for one of them at most.
    pub fn one_stream(&self) -> Result<(), Failure> {
        match self.rest.iter().filter(|name| *name == STREAM).count() {
            0 | 1 => Ok(()),
            _ => Err(self.wrong("standard input can be read only once")),
        }
    }

    /// The bytes of a key in hexadecimal, or with `--text` as it is written.
    pub fn bytes(&self, word: &OsStr) -> Result<Vec<u8>, Failure> {
        let bytes = keys::read(word.as_bytes(), self.has("--text"));
        bytes.map_err(|keys::Fault { column, text }| {
            self.wrong(format!("{word:?} is no key: column {column}: {text}"))
        })
    }
}
