//! What is asked of a call in one case.

/// No call has more destinations.
pub const MOST_DESTS: usize = 2;

/// No call answers more numbers.
pub const MOST_NUMBERS: usize = 2;

/// What stands behind the pointers to the answers. A call with one leaves the second alone.
pub type Numbers = [u64; MOST_NUMBERS];

/// The arguments of one case; a call that has no place or destination doesn't look at it.
#[derive(Clone, Copy)]
pub struct Asked<'a> {
    pub slices: &'a [&'a [u8]],
    pub place: u64,
    /// The destinations' lengths.
    pub dests: [usize; MOST_DESTS],
}

impl<'a> Asked<'a> {
    pub fn new(slices: &'a [&'a [u8]], place: u64, dest: usize) -> Self {
        let dests = [dest, 0];
        Asked {
            slices,
            place,
            dests,
        }
    }

    /// The slices one by one, as many as the call takes.
    pub fn all<const N: usize>(&self) -> [&'a [u8]; N] {
        let slices = self.slices.try_into();
        slices.expect("as many slices as the call takes")
    }

    /// A case without a place, with destinations of these lengths.
    pub fn with_dests(slices: &'a [&'a [u8]], dests: [usize; MOST_DESTS]) -> Self {
        let place = 0;
        Asked {
            slices,
            place,
            dests,
        }
    }
}
