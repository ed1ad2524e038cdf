//! `joistdenim table`.
use crate::arguments::{Arguments, STREAM};
use crate::failure::Done;
use crate::{files, output, Streams};
use joistdenim::Table;
use std::ffi::OsStr;

pub fn run(arguments: &Arguments, streams: &mut Streams) -> Done {
    let path = match &arguments.rest[..] {
        [] => OsStr::new(STREAM),
        _ => arguments.exactly::<1>("one list at most")?[0],
    };
    let hint = "'joistdenim list' makes a list of a table";
    let table: Table = files::of_text(path, hint, streams)?;
    output::bytes(&table.to_bytes(), arguments, streams)
}
