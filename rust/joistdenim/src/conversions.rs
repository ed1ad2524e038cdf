//! What several types have alike, so that it is written once.
use crate::bucket::Bucket;
use crate::edge::Edge;
use crate::element::Element;
use crate::key::Key;
use crate::lines::ListError;
use crate::pair::Pair;
use crate::refusal::Refusal;
use crate::table::Table;
use crate::text::TextError;
use std::fmt;

/// What is made of a slice of bytes is made of vectors and arrays too, and of references to them.
macro_rules! try_from_owners {
    ($($value:ident),*) => {$(
        try_from_owners!($value, [], Vec<u8>);
        try_from_owners!($value, [], &Vec<u8>);
        try_from_owners!($value, [const N: usize], [u8; N]);
        try_from_owners!($value, [const N: usize], &[u8; N]);
    )*};
    ($value:ident, [$($parameter:tt)*], $owner:ty) => {
        impl<$($parameter)*> TryFrom<$owner> for $value {
            type Error = Refusal;

            fn try_from(bytes: $owner) -> Result<Self, Refusal> {
                $value::try_from(&bytes[..])
            }
        }
    };
}
try_from_owners!(Bucket, Edge, Element, Key, Pair, Table);

/// An error that `main` answers is printed by `Debug`, and should be told as anywhere else.
macro_rules! debug_as_display {
    ($($error:ident),*) => {$(
        impl fmt::Debug for $error {
            fn fmt(&self, f: &mut fmt::Formatter<'_>) -> fmt::Result {
                fmt::Display::fmt(self, f)
            }
        }
    )*};
}
debug_as_display!(ListError, Refusal, TextError);
