//! The fields of a text, by lines.
use super::error::{Fault, ListError, Place};
use crate::text::TextError;
use std::str::FromStr;

#[derive(Clone, Copy)]
pub struct Field<'a> {
    pub text: &'a str,
    pub place: Place,
}

/// The lines that have fields, and where the text ends.
pub struct Rows<'a> {
    pub rows: Vec<Vec<Field<'a>>>,
    pub end: Place,
}

/// Blank lines, what follows a `#`, and a byte order mark are passed over.
pub fn rows(text: &str) -> Rows<'_> {
    let text = text.strip_prefix('\u{feff}').unwrap_or(text);
    let mut rows = vec![];
    let mut end = Place { line: 1, column: 1 };
    for text in text.lines() {
        let row = fields(text, end.line);
        if !row.is_empty() {
            rows.push(row);
        }
        end.line += 1;
    }
    Rows { rows, end }
}

/// No line that is read has more: those of the list.
const MOST_FIELDS: usize = 5;

fn fields(text: &str, line: usize) -> Vec<Field<'_>> {
    let text = text.split('#').next().unwrap_or_default();
    let mut column = 1;
    let mut fields = Vec::with_capacity(MOST_FIELDS);
    for text in text.split([' ', '\t']) {
        let place = Place { line, column };
        if !text.is_empty() {
            fields.push(Field { text, place });
        }
        column += text.chars().count() + 1;
    }
    fields
}

impl<'a> Field<'a> {
    /// What stands before the first such sign, the sign, and what stands behind it.
    pub fn split(&self, sign: char) -> Option<(Self, Self, Self)> {
        let (before, rest) = self.text.split_at(self.text.find(sign)?);
        let (sign, behind) = rest.split_at(sign.len_utf8());
        let at = before.chars().count();
        Some((
            self.part(before, 0),
            self.part(sign, at),
            self.part(behind, at + 1),
        ))
    }

    /// A part of it, after so many characters.
    fn part(&self, text: &'a str, before: usize) -> Self {
        let mut place = self.place;
        place.column += before;
        Field { text, place }
    }

    pub fn fault(&self, fault: Fault) -> ListError {
        let place = self.place;
        ListError { place, fault }
    }

    /// What the field says. A fault in it has its own column.
    pub fn read<T: FromStr<Err = TextError>>(&self) -> Result<T, ListError> {
        self.text.parse().map_err(|error: TextError| {
            let mut fault = self.fault(Fault::Text(error));
            fault.place.column += error.place();
            fault
        })
    }
}
