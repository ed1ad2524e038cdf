//! Texts of lines with fields: the list of a table, and a bucket.
mod error;
mod fields;

pub use error::{Fault, ListError, Place};
pub use fields::{rows, Field, Rows};
