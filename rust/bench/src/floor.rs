//! The floor: what any program must do that looks at every byte it is lent and writes the result.
use crate::lent::{Dests, Slices, ROOM};

static SOURCE: [u8; ROOM] = [0x41; ROOM];

/// A sum in bytes, which the compiler turns into whole registers of them.
fn checksum(bytes: &[u8]) -> u8 {
    bytes.iter().fold(0, |sum, &b| sum.wrapping_add(b))
}

/// One pass over each slice, and as many bytes copied as the call writes.
pub fn floor<const S: usize, const D: usize>(
    slices: &Slices<S>,
    written: &[usize; D],
    dests: &mut Dests<D>,
) -> usize {
    let mut sum = 0;
    for slice in slices {
        sum += usize::from(checksum(slice));
    }
    for (dest, &len) in dests.iter_mut().zip(written) {
        dest[..len].copy_from_slice(&SOURCE[..len]);
    }
    sum
}
