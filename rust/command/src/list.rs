//! `joistdenim list`.
use crate::arguments::Arguments;
use crate::failure::Done;
use crate::refused::put_quoted;
use crate::{files, output, Streams};
use joistdenim::{Edge, Element, Key, Slot, Table};
use std::fmt::{Display, Write};

pub fn run(arguments: &Arguments, streams: &mut Streams) -> Done {
    let [path] = arguments.exactly("one table")?;
    let table = files::table(path, streams)?;
    let is_short = arguments.has("--short");
    let mut text = match is_short {
        true => table.short().to_string(),
        false => table.to_string(),
    };
    if arguments.has("--text") {
        text = with_characters(&text, &table, is_short);
    }
    output::text(&text, arguments, streams)
}

/// Behind each line, as a comment, the characters of its keys.
fn with_characters(list: &str, table: &Table, is_short: bool) -> String {
    let mut lines = list.lines();
    let mut text = format!("{}\n", lines.next().unwrap_or_default());
    let mut end = None;
    for (slot, line) in table.slots().zip(&mut lines) {
        text.extend([line, "\t# "]);
        match is_short {
            true => put_short_slot(&mut text, &slot),
            false => put_full_slot(&mut text, &slot),
        }
        text.push('\n');
        end = Some(slot.right);
    }
    if let (Some(line), Some(end)) = (lines.next(), end) {
        text.extend([line, "\t# "]);
        put_element(&mut text, &end);
        text.push('\n');
    }
    text
}

fn put_full_slot(text: &mut String, slot: &Slot) {
    put_key(text, &slot.left);
    text.push(' ');
    put_element(text, &slot.right);
    text.push(' ');
    put_key(text, &slot.shared);
    text.push(' ');
    put_edge(text, &slot.edge);
}

fn put_short_slot(text: &mut String, slot: &Slot) {
    put_key(text, &slot.left);
    text.push(' ');
    if slot.edge.prefix().is_some() {
        put_key(text, &slot.shared);
        text.push('>');
    }
    put_edge(text, &slot.edge);
}

/// The characters of a key. What has none has its mark, as in the list.
fn put_key(text: &mut String, key: &Key) {
    match key.is_empty() {
        true => put(text, key),
        false => put_quoted(text, key.as_bytes()),
    }
}

fn put_element(text: &mut String, element: &Element) {
    match element {
        Element::Key(key) => put_key(text, key),
        Element::Max => put(text, element),
    }
}

fn put_edge(text: &mut String, edge: &Edge) {
    match edge.prefix() {
        Some(prefix) if !prefix.is_empty() => put_key(text, prefix),
        _ => put(text, edge),
    }
}

fn put(text: &mut String, value: &impl Display) {
    let _ = write!(text, "{value}");
}
