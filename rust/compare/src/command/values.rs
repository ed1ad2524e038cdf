//! Tables, keys, elements and edges as values: which inputs are tables, the order, and the texts,
//! against the reference.
use super::lists::each_input;
use super::wanted::{key_text, list_of};
use crate::call::Hex;
use crate::group::{test, Group, Test};
use crate::inputs::{counted, field_record, record, small_keys, Record, MAX};
use joistdenim::{Edge, Element, Key, Table};
use std::cmp::Ordering;
use std::fmt::{Debug, Display};
use std::str::FromStr;

pub fn tests() -> Vec<Test> {
    vec![
        test("command: inputs as tables", tables),
        test("command: order of keys and elements", orders),
        test("command: keys, elements and edges as text", texts),
    ]
}

/// An input is a table exactly where it has a list, and else it has the same refusal.
fn tables(group: &mut Group) {
    let mut seen = [0; 2];
    each_input(|input| {
        let (list, table) = (list_of(input), Table::try_from(input));
        let refusal = table.as_ref().err().map(|refusal| refusal.number());
        group.check(refusal == list.as_ref().err().copied(), || {
            format!("{}: {refusal:?}, the list {list:?}", Hex(input))
        });
        if let Ok(table) = &table {
            group.check(table.to_bytes() == input, || {
                format!("{}: {}", Hex(input), Hex(&table.to_bytes()))
            });
        }
        seen[usize::from(table.is_err())] += 1;
    });
    group.sorts(&seen);
}

/// Small keys and a longest one, as bytes and as values.
fn keys() -> Vec<(Vec<u8>, Key)> {
    let mut keys = small_keys(3);
    keys.push(counted(64));
    let both = |bytes: Vec<u8>| {
        let key = Key::try_from(&bytes[..]).expect("no key is too long");
        (bytes, key)
    };
    keys.into_iter().map(both).collect()
}

/// These and max, as records and as values.
fn elements() -> Vec<(Record, Element)> {
    let both = |(bytes, key): (Vec<u8>, Key)| (record(&bytes), Element::Key(key));
    let mut elements: Vec<_> = keys().into_iter().map(both).collect();
    elements.push((field_record(MAX), Element::Max));
    elements
}

fn orders(group: &mut Group) {
    let elements = elements();
    for (record, a) in &elements {
        for (other, b) in &elements {
            let order = reference::compare(record, other).expect("both are elements");
            ordered(group, [a, b], order);
            if let (Element::Key(a), Element::Key(b)) = (a, b) {
                ordered(group, [a, b], order);
            }
        }
    }
}

fn ordered<T: Ord + Debug>(group: &mut Group, [a, b]: [&T; 2], order: Ordering) {
    let same = a.cmp(b) == order && (a == b) == order.is_eq();
    group.check(same, || {
        format!("{a:?} and {b:?}: {:?}, wanted {order:?}", a.cmp(b))
    });
}

/// The value's text, which is read as the value again.
fn text<T: Display + Debug + FromStr + PartialEq>(group: &mut Group, value: &T, wanted: &str) {
    let text = value.to_string();
    let same = text.parse().is_ok_and(|read: T| read == *value);
    group.check(text == wanted && same, || {
        format!("{value:?}: {text:?}, wanted {wanted:?}")
    });
}

fn texts(group: &mut Group) {
    for (bytes, key) in keys() {
        let digits = key_text(&bytes);
        text(group, &key, &digits);
        text(group, &Element::Key(key), &digits);
        let edge = if bytes.is_empty() { "." } else { &digits };
        text(group, &Edge::Prefix(key), edge);
    }
    text(group, &Element::Max, "max");
    text(group, &Edge::Absent, "-");
}
