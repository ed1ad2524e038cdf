//! The column of edges: an edge, and before it in the short form what it replaces.
use crate::edge::Edge;
use crate::key::Key;
use crate::lines::{Fault, Field, ListError};
use crate::text::NO_EDGE;

/// Stands between what is replaced and the edge.
pub const BECOMES: char = '>';

/// An edge of a list, where another column says what is replaced.
pub fn of_list(field: &Field) -> Result<Edge, ListError> {
    match field.split(BECOMES) {
        Some((_, sign, _)) => Err(sign.fault(Fault::ReplacedInList)),
        None => field.read(),
    }
}

/// An edge of the short form and, if the text says so, what it replaces. A side that is missing
/// isn't taken for the empty one, which has its mark: the line may not be finished.
pub fn of_short(field: &Field) -> Result<(Edge, Option<Key>), ListError> {
    let Some((old, _, new)) = field.split(BECOMES) else {
        return Ok((field.read()?, None));
    };
    match (old.text, new.text) {
        ("", _) => Err(old.fault(Fault::NoSide)),
        (_, "") => Err(new.fault(Fault::NoSide)),
        (_, NO_EDGE) => Err(new.fault(Fault::ReplacedByNone)),
        _ => {
            let replaced = old.read()?;
            Ok((new.read()?, Some(replaced)))
        }
    }
}

/// Why a line of the short form has too many fields.
pub fn too_many(row: &[Field]) -> Fault {
    let is_side = |text: &str| text.starts_with(BECOMES) || text.ends_with(BECOMES);
    match row.iter().any(|field| is_side(field.text)) {
        true => Fault::Parted,
        false => Fault::ThirdField,
    }
}
