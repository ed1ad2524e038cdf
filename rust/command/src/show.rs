//! `joistdenim show`.
mod answer;
mod blocks;
mod lines;
mod rows;

use crate::arguments::{Arguments, STREAM};
use crate::failure::{Done, Failure, Refused};
use crate::refused::digits;
use crate::{files, output, Streams};
use answer::{answer, Answer};
use blocks::Blocks;
use joistdenim::{Table, MAX_LEN};
use std::ffi::OsStr;

pub fn run(arguments: &Arguments, streams: &mut Streams) -> Done {
    let [table, keys @ ..] = &arguments.rest[..] else {
        return Err(arguments.wrong("show takes a table and keys"));
    };
    if keys.is_empty() {
        return Err(arguments.wrong("show takes keys, or - for keys on standard input"));
    }
    arguments.one_stream()?;
    let mut show = Show::new(table, arguments, streams)?;
    if let Form::Rows = show.form {
        output::print(streams, rows::HEADER.as_bytes())?;
    }
    for key in keys {
        match key == STREAM {
            true => show.lines(streams)?,
            false => show.argument(arguments.bytes(key), streams)?,
        };
    }
    show.hint(keys.len(), streams);
    Ok(show.status)
}

struct Show {
    table: Table,
    as_written: bool,
    form: Form,
    status: u8,
    /// The arguments that are refused and have one byte.
    single: Vec<u8>,
}

enum Form {
    Blocks(Blocks),
    Rows,
}

/// Where a key comes from.
#[derive(Clone, Copy, PartialEq)]
enum Source {
    Argument,
    Line,
}

impl Show {
    fn new(table: &OsStr, arguments: &Arguments, streams: &mut Streams) -> Result<Self, Failure> {
        let as_written = arguments.has("--text");
        let form = match arguments.has("--tsv") {
            true => Form::Rows,
            false => Form::Blocks(Blocks::new(as_written, streams.colour)),
        };
        Ok(Show {
            table: files::table(table, streams)?,
            as_written,
            form,
            status: 0,
            single: vec![],
        })
    }

    /// A key among the arguments. What can't be read has a row, and no block.
    fn argument(&mut self, key: Result<Vec<u8>, Failure>, streams: &mut Streams) -> Done {
        match key {
            Ok(key) => {
                let answer = self.answer(key);
                if let (Err(_), [byte]) = (&answer.renamed, &answer.asked[..]) {
                    self.single.push(*byte);
                }
                self.tell(&answer, Source::Argument, streams)
            }
            Err(failure) => {
                self.fail(&failure, Source::Argument, streams);
                match self.form {
                    Form::Blocks(_) => Ok(0),
                    Form::Rows => output::print(streams, rows::UNREAD.as_bytes()),
                }
            }
        }
    }

    /// Keys on standard input, each answered before the next is read.
    fn lines(&mut self, streams: &mut Streams) -> Done {
        for number in 1.. {
            let Some(line) = lines::next(streams)? else {
                break;
            };
            match lines::key(&line, number, self.as_written) {
                Ok(Some(key)) => self.tell(&self.answer(key), Source::Line, streams)?,
                Ok(None) => continue,
                Err(fault) => self.unread(fault, streams)?,
            };
        }
        Ok(0)
    }

    fn answer(&self, key: Vec<u8>) -> Answer {
        answer(&self.table, key, self.as_written)
    }

    /// A refused key has its answer on standard output too where each key has one, in its place:
    /// for keys on standard input, and in rows.
    fn tell(&mut self, answer: &Answer, source: Source, streams: &mut Streams) -> Done {
        if let Err(Refused { refusal, text }) = &answer.renamed {
            self.fail(&Failure::refused(*refusal, text), source, streams);
        }
        let text = match &mut self.form {
            Form::Blocks(_) if answer.renamed.is_err() && source == Source::Argument => {
                return Ok(0)
            }
            Form::Blocks(blocks) => blocks.block(answer),
            Form::Rows => rows::row(answer),
        };
        output::print(streams, text.as_bytes())
    }

    /// A line that is no key.
    fn unread(&mut self, text: String, streams: &mut Streams) -> Done {
        let in_place = match &mut self.form {
            Form::Blocks(blocks) => blocks.unread(&text),
            Form::Rows => rows::UNREAD.into(),
        };
        self.fail(&Failure::File(text), Source::Line, streams);
        output::print(streams, in_place.as_bytes())
    }

    /// Tells it on standard error, unless whoever sits at the terminal reads the same in its place.
    fn fail(&mut self, failure: &Failure, source: Source, streams: &mut Streams) {
        let is_block = source == Source::Line && matches!(self.form, Form::Blocks(_));
        if !(is_block && streams.terminal && streams.errors_terminal) {
            let _ = write!(streams.errors, "{failure}");
        }
        self.status = self.status.max(failure.status());
    }

    /// Single bytes that are all refused were most likely meant as one key. As text they may have
    /// been parted by spaces that belong to it, so there nothing is said.
    fn hint(&self, given: usize, streams: &mut Streams) {
        let is_one_key = self.single.len() == given && (2..=MAX_LEN).contains(&given);
        if self.as_written || !is_one_key {
            return;
        }
        let bytes: Vec<String> = self.single.chunks(1).map(digits).collect();
        let (joined, parted) = (bytes.concat(), bytes.join(" "));
        let _ = writeln!(
            streams.errors,
            "joistdenim: these are {given} keys of one byte each; for one key write {joined} or \"{parted}\""
        );
    }
}
