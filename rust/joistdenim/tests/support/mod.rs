//! What the tests share: bytes and values written as text, T, and what is said of a text that is
//! no table.
#![allow(dead_code)]
use joistdenim::{Bucket, Element, Key, ListError, Refusal, Table};
use std::fmt::Debug;
use std::str::FromStr;

fn read<T: FromStr<Err: Debug>>(text: &str) -> T {
    text.parse().expect(text)
}

pub fn key(text: &str) -> Key {
    read(text)
}

pub fn table(text: &str) -> Table {
    read(text)
}

pub const LIST_OF_T: &str =
    "slot\tleft\tright\tshared\tedge\n0\t4130\t4135\t41\t43\n1\t4135\t42\t41\t-\n";

/// Document 01's table T.
pub fn t() -> Table {
    table(LIST_OF_T)
}

/// Where a record of the list program's input begins, behind the count of the pivots.
pub const fn record_at(place: usize) -> usize {
    2 + place * joistdenim::RECORD_SIZE
}

/// The bytes of T: the count, three pivots and two edges.
pub const T_SIZE: usize = record_at(5);

/// A key's bytes alone.
pub fn bytes(text: &str) -> Vec<u8> {
    key(text).as_bytes().to_vec()
}

/// The records of elements, parted by spaces.
pub fn pivots(text: &str) -> Vec<u8> {
    let elements = text.split(' ').map(read::<Element>);
    elements.flat_map(|element| *element.record()).collect()
}

/// The entries of a bucket, a line for each.
pub fn entries(text: &str) -> Vec<u8> {
    read::<Bucket>(text).as_bytes().to_vec()
}

/// The texts, each of them T's.
#[track_caller]
pub fn all_are_t(texts: &[&str]) {
    for text in texts {
        assert_eq!(text.parse().as_ref(), Ok(&t()), "{text:?}");
    }
}

/// Line and column, what is said there, and the refusal's number or 0.
pub type Said<'a> = (usize, usize, &'a str, u32);

pub fn said(error: &ListError) -> (usize, usize, String, u32) {
    let number = error.refusal().map_or(0, Refusal::number);
    (error.line(), error.column(), error.reason(), number)
}

#[track_caller]
pub fn faults_of_tables(cases: &[(&str, Said)]) {
    for (text, (line, column, reason, number)) in cases {
        let error = text.parse::<Table>().expect_err(text);
        assert_eq!(
            said(&error),
            (*line, *column, reason.to_string(), *number),
            "{text:?}"
        );
    }
}
