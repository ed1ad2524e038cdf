//! Destinations of the list near what is written.
use super::calls::LIST_TABLE;
use crate::asked::Asked;
use crate::group::Group;

/// The longest text, and some bytes more.
pub const ROOM: usize = 32_715 + 7;

/// The lengths of destinations around the text: exactly enough, a byte short, room to spare, and
/// none.
pub fn dests_around(input: &[u8]) -> [usize; 4] {
    let length = reference::list_table(input, &mut [0; ROOM]).expect("there is room for any text");
    [length, length - 1, length + 7, 0]
}

/// One case for each destination around the text.
pub fn around(group: &mut Group, input: &[u8]) {
    for dest in dests_around(input) {
        let place = 0;
        group.case(&LIST_TABLE, &Asked::new(&[input], place, dest));
    }
}
