//! What a parameter is in each language, brought to one form: a slice is one parameter, though C has two for it.
use crate::prototypes::{Language, Words};
use std::fmt;

/// The numbers of Rattle and Rust, and what C calls them.
const NUMBERS: [(&str, &str); 8] = [
    ("u8", "uint8_t"),
    ("u16", "uint16_t"),
    ("u32", "uint32_t"),
    ("u64", "uint64_t"),
    ("i8", "int8_t"),
    ("i16", "int16_t"),
    ("i32", "int32_t"),
    ("i64", "int64_t"),
];

#[derive(Clone, Copy, Debug, PartialEq)]
pub enum Form {
    Read,
    Written,
    Number(&'static str),
    /// Where one number is written.
    Answer(&'static str),
}

pub struct Parameter<'a> {
    pub name: &'a str,
    pub form: Form,
}

impl fmt::Display for Parameter<'_> {
    fn fmt(&self, f: &mut fmt::Formatter) -> fmt::Result {
        write!(f, "`{}`, {}", self.name, self.form)
    }
}

/// A line, and what is wrong there.
pub type Fault = (usize, String);

/// A parameter of C's kind: a slice is its bytes and their length.
#[derive(PartialEq)]
enum Part {
    Whole(Form),
    Bytes(Form),
    Length,
}

impl fmt::Display for Form {
    fn fmt(&self, f: &mut fmt::Formatter) -> fmt::Result {
        match self {
            Form::Read => write!(f, "a slice read"),
            Form::Written => write!(f, "a slice written"),
            Form::Number(number) => write!(f, "a number {number}"),
            Form::Answer(number) => write!(f, "an answer {number}"),
        }
    }
}

impl Language {
    pub fn number(self, word: &str) -> Option<&'static str> {
        let named = |(number, in_c): &&(&'static str, &str)| match self {
            Language::C => *in_c == word,
            Language::Rattle | Language::Rust => *number == word,
        };
        NUMBERS.iter().find(named).map(|(number, _)| *number)
    }

    /// The parameters of a function, or the first that isn't understood.
    pub fn parameters<'a>(self, words: &[Words<'a>]) -> Result<Vec<Parameter<'a>>, Fault> {
        let mut parameters = vec![];
        let mut rest = words.iter();
        while let Some(Words { line, text }) = rest.next() {
            let fault = |what: String| (*line, format!("`{text}` {what}"));
            let unknown = || fault("isn't understood".to_string());
            let (name, part) = self.part(text).ok_or_else(unknown)?;
            let form = match part {
                Part::Whole(form) => form,
                Part::Bytes(form) => {
                    let length = format!("{name}_len");
                    let next = rest.next().and_then(|next| self.part(next.text));
                    if next != Some((length.as_str(), Part::Length)) {
                        return Err(fault(format!("needs its length behind it, `{length}`")));
                    }
                    form
                }
                Part::Length => return Err(fault("has no slice before it".to_string())),
            };
            parameters.push(Parameter { name, form });
        }
        Ok(parameters)
    }

    fn part<'a>(self, parameter: &'a str) -> Option<(&'a str, Part)> {
        let (name, of) = self.named(parameter)?;
        let part = match (self, of) {
            (Language::Rattle, "&[u8]") => Part::Whole(Form::Read),
            (Language::Rattle, "&mut [u8]") => Part::Whole(Form::Written),
            (Language::C, "const uint8_t *") | (Language::Rust, "*const u8") => {
                Part::Bytes(Form::Read)
            }
            (Language::C, "uint8_t *") | (Language::Rust, "*mut u8") => Part::Bytes(Form::Written),
            (Language::C, "size_t") | (Language::Rust, "usize") => Part::Length,
            _ => Part::Whole(self.one(of)?),
        };
        Some((name, part))
    }

    /// A number, or a pointer to one.
    fn one(self, of: &str) -> Option<Form> {
        let pointed = match self {
            Language::Rattle => of.strip_prefix("&mut "),
            Language::C => of.strip_suffix(" *"),
            Language::Rust => of.strip_prefix("*mut "),
        };
        Some(match pointed {
            Some(number) => Form::Answer(self.number(number)?),
            None => Form::Number(self.number(of)?),
        })
    }
}
