//! `joistdenim check`.
use crate::arguments::Arguments;
use crate::failure::Done;
use crate::{files, output, Streams};
use joistdenim::Table;

/// Each table is looked at, whatever is wrong with another, and its line or its fault is told before
/// the next. A file is written only if none is wrong.
pub fn run(arguments: &Arguments, streams: &mut Streams) -> Done {
    if arguments.rest.is_empty() {
        return Err(arguments.wrong("check takes tables"));
    }
    arguments.one_stream()?;
    let mut status = 0;
    let mut lines = String::new();
    for path in &arguments.rest {
        match files::table(path, streams) {
            Ok(table) => {
                let line = format!("{}: {}\n", files::name_of(path), size(&table));
                match arguments.file() {
                    Some(_) => lines += &line,
                    None => drop(output::print(streams, line.as_bytes())?),
                }
            }
            Err(failure) => {
                let _ = write!(streams.errors, "{failure}");
                status = status.max(failure.status());
            }
        }
    }
    if status == 0 && arguments.file().is_some() {
        output::text(&lines, arguments, streams)?;
    }
    Ok(status)
}

fn size(table: &Table) -> String {
    let (pivots, slots) = (table.pivots().len(), table.edges().len());
    let edges = table.edges().filter(|edge| edge.prefix().is_some()).count();
    let slots = match slots {
        1 => "1 slot".into(),
        _ => format!("{slots} slots"),
    };
    let all = match table.contains_all_keys() {
        true => ", all keys",
        false => "",
    };
    format!("well formed, {pivots} pivots, {slots}, {edges} with an edge{all}")
}
