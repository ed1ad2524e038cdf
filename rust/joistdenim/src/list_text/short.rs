//! A table printed in the short form.
use super::edges::BECOMES;
use super::forms::SHORT;
use crate::edge::Edge;
use crate::table::Table;
use std::fmt;

/// A table in the short form, for whoever edits it. `Display` writes a line with the names of the
/// two fields, then one for each slot: its left bound, and `OLD>NEW`, what its keys share and the
/// edge, or `-` where it has no edge. The last line has the end alone. Fields are parted by a tab.
///
/// Read back it is the same table. If a bound was changed so that the keys of a slot share
/// something else, it isn't read, but told with what they share.
///
/// ```
/// use joistdenim::Table;
///
/// let t: Table = "4130 43\n4135 -\n42\n".parse()?;
/// let short = t.short().to_string();
/// assert_eq!(short, "left\tedge\n4130\t41>43\n4135\t-\n42\n");
/// assert_eq!(short.parse::<Table>()?, t);
///
/// let error = short.replace("4135", "4131").parse::<Table>().unwrap_err();
/// assert_eq!((error.line(), error.column()), (2, 6));
/// # Ok::<(), joistdenim::ListError>(())
/// ```
#[derive(Clone, Copy, Debug)]
pub struct ShortForm<'a>(&'a Table);

impl Table {
    /// The table in the short form, to be printed.
    pub fn short(&self) -> ShortForm<'_> {
        ShortForm(self)
    }
}

impl fmt::Display for ShortForm<'_> {
    fn fmt(&self, f: &mut fmt::Formatter<'_>) -> fmt::Result {
        writeln!(f, "{}", SHORT.join("\t"))?;
        let mut end = None;
        for slot in self.0.slots() {
            write!(f, "{}\t", slot.left)?;
            match slot.edge {
                Edge::Prefix(_) => write!(f, "{}{BECOMES}", slot.shared)?,
                Edge::Absent => {}
            }
            writeln!(f, "{}", slot.edge)?;
            end = Some(slot.right);
        }
        end.map_or(Ok(()), |end| writeln!(f, "{end}"))
    }
}
