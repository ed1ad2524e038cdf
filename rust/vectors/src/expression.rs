//! Bytes as they are written in a file: names, hexadecimal digits, records, pairs and entries, joined,
//! repeated and cut.
use std::collections::HashMap;

const RECORD_SIZE: usize = 66;
const MAX_LEN: usize = 64;
const NO_EDGE: u16 = 65_534;
const MAX: u16 = 65_535;

type Fault = String;

#[derive(Default)]
pub struct Names(HashMap<String, Vec<u8>>);

impl Names {
    pub fn define(&mut self, name: &str, value: &str) -> Result<(), Fault> {
        if !name.starts_with(|c: char| c.is_ascii_uppercase()) {
            return Err(format!("no name: {name}"));
        }
        let value = self.bytes(value)?;
        self.0.insert(name.to_string(), value);
        Ok(())
    }

    /// The bytes of a whole expression.
    pub fn bytes(&self, text: &str) -> Result<Vec<u8>, Fault> {
        let mut cursor = Cursor {
            names: self,
            rest: text,
            counter: 0,
        };
        let bytes = cursor.expression()?;
        match cursor.rest {
            "" => Ok(bytes),
            rest => Err(format!("what is left: {rest}")),
        }
    }
}

/// The text that is still to be read, and the counter of the `each` around it.
struct Cursor<'a> {
    names: &'a Names,
    rest: &'a str,
    counter: u16,
}

impl<'a> Cursor<'a> {
    fn takes(&mut self, text: &str) -> bool {
        let rest = self.rest.strip_prefix(text);
        self.rest = rest.unwrap_or(self.rest);
        rest.is_some()
    }

    fn take(&mut self, text: &str) -> Result<(), Fault> {
        let taken = self.takes(text);
        let rest = self.rest;
        taken.then_some(()).ok_or(format!("no {text} at {rest}"))
    }

    /// The characters up to one that isn't so.
    fn while_is(&mut self, is: impl Fn(char) -> bool) -> &'a str {
        let end = self.rest.find(|c| !is(c)).unwrap_or(self.rest.len());
        let (head, rest) = self.rest.split_at(end);
        self.rest = rest;
        head
    }

    fn number(&mut self) -> Result<usize, Fault> {
        let digits = self.while_is(|c| c.is_ascii_digit());
        digits.parse().map_err(|_| format!("no number: {digits}"))
    }

    fn expression(&mut self) -> Result<Vec<u8>, Fault> {
        let mut bytes = self.term()?;
        while self.takes("+") {
            bytes.extend(self.term()?);
        }
        Ok(bytes)
    }

    fn term(&mut self) -> Result<Vec<u8>, Fault> {
        let mut bytes = self.atom()?;
        loop {
            if self.takes("*") {
                bytes = bytes.repeat(self.number()?);
            } else if self.takes("[") {
                bytes = self.part(&bytes)?;
            } else {
                return Ok(bytes);
            }
        }
    }

    /// The bytes between two numbers; without the first from the beginning, without the second to
    /// the end.
    fn part(&mut self, bytes: &[u8]) -> Result<Vec<u8>, Fault> {
        let from = if self.takes(":") {
            0
        } else {
            let from = self.number()?;
            self.take(":")?;
            from
        };
        let to = match self.rest.starts_with(']') {
            true => bytes.len(),
            false => self.number()?,
        };
        self.take("]")?;
        let part = bytes.get(from..to).map(<[u8]>::to_vec);
        part.ok_or(format!("no part {from}:{to} of {}", bytes.len()))
    }

    fn atom(&mut self) -> Result<Vec<u8>, Fault> {
        if self.takes("-") {
            return Ok(vec![]);
        }
        if self.takes("##") {
            return Ok(self.counter.to_be_bytes().to_vec());
        }
        if self.takes("#") {
            return Ok(vec![self.counter as u8]);
        }
        if self.takes("\"") {
            let text = self.while_is(|c| c != '"');
            self.take("\"")?;
            return Ok(text.replace("\\t", "\t").replace("\\n", "\n").into_bytes());
        }
        let word = self.while_is(|c| c.is_ascii_alphanumeric() || c == '.' || c == '_');
        if let Some(bytes) = self.names.0.get(word) {
            return Ok(bytes.clone());
        }
        self.word(word)
    }

    /// A word of the format, or hexadecimal digits.
    fn word(&mut self, word: &str) -> Result<Vec<u8>, Fault> {
        match word {
            "max" => return record(MAX, &[]),
            "none" => return record(NO_EDGE, &[]),
            "rec" | "field" | "pair" | "entry" | "each" => self.take("(")?,
            digits => return hex(digits),
        }
        let bytes = match word {
            "rec" => self.records(),
            "field" => self.field(),
            "pair" => self.pair(),
            "entry" => self.entry(),
            _ => self.each(),
        }?;
        self.take(")")?;
        Ok(bytes)
    }

    fn key_record(&mut self) -> Result<Vec<u8>, Fault> {
        let key = self.expression()?;
        record(key.len() as u16, &key)
    }

    fn records(&mut self) -> Result<Vec<u8>, Fault> {
        let mut records = self.key_record()?;
        while self.takes(",") {
            records.extend(self.key_record()?);
        }
        Ok(records)
    }

    fn field(&mut self) -> Result<Vec<u8>, Fault> {
        let field = self.number()? as u16;
        match self.takes(",") {
            true => record(field, &self.expression()?),
            false => record(field, &[]),
        }
    }

    fn pair(&mut self) -> Result<Vec<u8>, Fault> {
        let old = self.key_record()?;
        self.take(",")?;
        let new = self.key_record()?;
        let ((old_len, old), (new_len, new)) = (old.split_at(2), new.split_at(2));
        Ok([&[1], old_len, new_len, old, new].concat())
    }

    fn entry(&mut self) -> Result<Vec<u8>, Fault> {
        let record = self.key_record()?;
        self.take(",")?;
        Ok([record, self.expression()?].concat())
    }

    /// Once for each number from the first up to the second, by steps of the third.
    fn each(&mut self) -> Result<Vec<u8>, Fault> {
        let mut bounds = [0; 3];
        for bound in &mut bounds {
            *bound = self.number()?;
            self.take(",")?;
        }
        let (body, before) = (self.rest, self.counter);
        let mut bytes = vec![];
        for counter in (bounds[0]..bounds[1]).step_by(bounds[2]) {
            self.rest = body;
            self.counter = counter as u16;
            bytes.extend(self.expression()?);
        }
        self.counter = before;
        Ok(bytes)
    }
}

/// The record with this length field and these bytes.
fn record(field: u16, bytes: &[u8]) -> Result<Vec<u8>, Fault> {
    if bytes.len() > MAX_LEN {
        return Err(format!("{} bytes in a record", bytes.len()));
    }
    let mut record = vec![0; RECORD_SIZE];
    record[..2].copy_from_slice(&field.to_be_bytes());
    record[2..][..bytes.len()].copy_from_slice(bytes);
    Ok(record)
}

fn hex(digits: &str) -> Result<Vec<u8>, Fault> {
    let lower = |c: &u8| c.is_ascii_digit() || (b'a'..=b'f').contains(c);
    let pairs = digits.as_bytes().chunks(2);
    let byte = |pair: &[u8]| match pair.len() == 2 && pair.iter().all(lower) {
        true => u8::from_str_radix(std::str::from_utf8(pair).unwrap_or(""), 16).ok(),
        false => None,
    };
    let bytes: Option<Vec<u8>> = pairs.map(byte).collect();
    let bytes = bytes.filter(|bytes| !bytes.is_empty());
    bytes.ok_or(format!("neither a name nor bytes: {digits}"))
}
