//! Destinations around what a call writes.
use crate::asked::{Asked, MOST_DESTS, MOST_NUMBERS};
use crate::call::Call;
use crate::group::Group;

/// Exactly enough, a byte short on either side and on both, room to spare, and none. Where the
/// call is refused, around what it is lent.
pub fn dests_around(call: &Call, slices: &[&[u8]]) -> Vec<[usize; MOST_DESTS]> {
    // No call writes more than it is lent and two records.
    let room = slices.iter().map(|slice| slice.len()).sum::<usize>() + 2 * 66;
    let (mut first, mut second) = (vec![0; room], vec![0; room]);
    let asked = Asked::with_dests(slices, [room; MOST_DESTS]);
    let mut numbers = [0; MOST_NUMBERS];
    let status = (call.reference)(&asked, [&mut first, &mut second], &mut numbers);
    let [first, second] = match (call.dests.len(), status) {
        (_, 0) => (call.written)(&asked, numbers[0]),
        (2, _) => [slices[0].len(), slices[1].len()],
        _ => [slices[slices.len() - 1].len(), 0],
    };
    let (short, next) = (first.saturating_sub(1), second.saturating_sub(1));
    let mut dests = vec![
        [first, second],
        [short, second],
        [first + 7, second],
        [0, second],
    ];
    if call.dests.len() == 2 {
        dests.extend([
            [first, next],
            [short, next],
            [first + 66, second + 66],
            [first, 0],
        ]);
    }
    dests
}

/// One case for each of these destinations.
pub fn around(group: &mut Group, call: &Call, slices: &[&[u8]]) {
    for dests in dests_around(call, slices) {
        group.case(call, &Asked::with_dests(slices, dests));
    }
}
