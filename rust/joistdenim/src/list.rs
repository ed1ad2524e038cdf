//! The list of a table, as text.
use crate::lend::lend;
use crate::raw;
use crate::refusal::Refusal;

/// Writes the list of the table in the input; answers the text's length, at most 32,715. The
/// input is the count of the pivots in two bytes, high byte first, the pivots and the edges. The
/// text is a line with the names of the fields and a line for each slot: its number from 0, its
/// two pivots, the range's prefix and the edge. A tab parts two fields, and 0A ends each line.
/// Keys are lower-case hexadecimal; max is `max`, and the empty key is `-`. An edge of length 0
/// is `.`, and no edge is `-`.
///
/// An input with missing or extra bytes, or that is no table, is accepted too: its text is
/// `refused`, a tab, the number 1, 2, 3 or 4, and 0A. Refuses 10.
///
/// ```
/// use joistdenim::{list_table, RECORD_SIZE};
///
/// // The pivots 41 30, 41 35 and 42, the edge 43 and an empty one.
/// let mut input = vec![0, 3];
/// for key in [&[0x41, 0x30][..], &[0x41, 0x35], &[0x42], &[0x43], &[]] {
///     let mut record = [0; RECORD_SIZE];
///     record[1] = key.len() as u8;
///     record[2..2 + key.len()].copy_from_slice(key);
///     input.extend(record);
/// }
/// let mut dest = [0; 100];
/// let length = list_table(&input, &mut dest)?;
/// let text = "slot\tleft\tright\tshared\tedge\n0\t4130\t4135\t41\t43\n1\t4135\t42\t41\t.\n";
/// assert_eq!(dest[..length], *text.as_bytes());
///
/// let length = list_table(&input[1..], &mut dest)?;
/// assert_eq!(dest[..length], *b"refused\t1\n");
/// # Ok::<(), joistdenim::Refusal>(())
/// ```
pub fn list_table(input: &[u8], dest: &mut [u8]) -> Result<usize, Refusal> {
    let length = lend!(raw::jd_list_table, input; dest)?;
    Ok(length as usize)
}
