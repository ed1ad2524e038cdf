//! A table read back from its list, or from the short form that people write.
mod edges;
mod forms;
mod short;

use crate::lines::{rows, ListError};
use crate::table::Table;
use forms::read;
pub use short::ShortForm;
use std::str::FromStr;

/// Reads the list of a table, as `Display` writes it. The fields `left`, `right` and `edge`
/// decide; `slot` and `shared` must agree with them, and `right` with the next `left`.
///
/// Spaces may stand for tabs. Blank lines are passed over, and so is what follows a `#`. The line
/// with the names of the fields may be missing. And there is a short form: a line for each slot,
/// with `left` and `edge` alone, and a last line with the end, a key or `max`. There an edge may be
/// `OLD>NEW`, with what it replaces, which then must be what the keys of the slot share.
///
/// ```
/// use joistdenim::{ListError, Refusal, Table};
///
/// let table: Table = "left edge  # all keys from 41 on\n41 -\nmax\n".parse()?;
/// assert_eq!(table, table.to_string().parse()?);
///
/// let error = "41 -\n40 -\nmax\n".parse::<Table>().unwrap_err();
/// assert_eq!((error.line(), error.column()), (2, 1));
/// assert_eq!(error.refusal(), Some(Refusal::Unsorted));
/// # Ok::<(), ListError>(())
/// ```
impl FromStr for Table {
    type Err = ListError;

    fn from_str(text: &str) -> Result<Self, ListError> {
        let read = read(&rows(text))?;
        let table = Table::new(&read.pivots, &read.edges);
        let table = table.map_err(|refusal| read.refused(refusal))?;
        read.check_shared(&table)?;
        Ok(table)
    }
}
