//! One group for each call: slices of every length from 0 to 140 in each argument and in a lone
//! destination, beside good and bad slices in the others. So every order of causes over the
//! arguments comes up.
use crate::asked::{Asked, MOST_DESTS};
use crate::bucket_inputs::usual_buckets;
use crate::call::{Call, Kind};
use crate::group::Group;
use crate::index::inputs::usual_indexes;
use crate::inputs::{counted, entry, field_record, record, MAX, NO_EDGE};
use crate::list_inputs::usual_inputs;
use crate::pair_inputs::{pair, usual_pairs};
use crate::table_inputs::{usual_edges, usual_pivots, usual_seconds};

const LONGEST: usize = 140;

/// Good and bad slices for an argument: some refused with 1, some with 2, some taken.
pub fn usual(kind: Kind) -> Vec<Vec<u8>> {
    let records = [record(&[0x41, 0x30]), record(&[0x42])];
    let marks = [MAX, NO_EDGE, 65].map(field_record);
    let records = records.iter().chain(&marks);
    match kind {
        Kind::Key => {
            let mut keys = [0, 1, 2, 63, 64, 65].map(counted).to_vec();
            keys.push(vec![0x41, 0x31]);
            keys
        }
        Kind::Record => {
            let wrong = [0, 65, 67].map(|len| vec![0; len]);
            records.map(|r| r.to_vec()).chain(wrong).collect()
        }
        Kind::Entry => records.map(|r| entry(r).to_vec()).collect(),
        Kind::Pivots | Kind::Child => usual_pivots(),
        Kind::Second => usual_seconds(),
        Kind::Edges => usual_edges(),
        Kind::Pair => usual_pairs(),
        Kind::Bucket => usual_buckets(),
        Kind::Index => usual_indexes(),
        Kind::Input => usual_inputs(),
    }
}

/// Slices of a length: zeros, FF, counted bytes, and a good record or pair cut or drawn out.
fn contents(kind: Kind, len: usize) -> Vec<Vec<u8>> {
    let mut good = match kind {
        Kind::Pair => pair(&[0x41], &[0x43]).to_vec(),
        _ => record(&[0x41, 0x30]).to_vec(),
    };
    good.resize(len, 0);
    vec![vec![0; len], vec![0xFF; len], counted(len), good]
}

/// Places inside a table, at and past its end, and past every count.
const PLACES: [u64; 9] = [0, 1, 2, 3, 63, 64, 65, 1 << 32, u64::MAX];

/// All ways to choose one slice for each argument, with the destinations given, and with places
/// where the call takes one.
pub fn choices(
    group: &mut Group,
    call: &Call,
    slices: &[Vec<Vec<u8>>],
    dests: &[[usize; MOST_DESTS]],
) {
    let ways: usize = slices.iter().map(Vec::len).product();
    for way in 0..ways {
        let mut left = way;
        let chosen: Vec<&[u8]> = slices
            .iter()
            .map(|some| {
                let one = &some[left % some.len()];
                left /= some.len();
                &one[..]
            })
            .collect();
        let slices = &chosen[..];
        let places = if call.takes_place { &PLACES[..] } else { &[0] };
        for &dests in dests {
            for &place in places {
                let asked = Asked {
                    slices,
                    place,
                    dests,
                };
                group.case(call, &asked);
            }
        }
    }
}

pub fn every_length(group: &mut Group, call: &Call) {
    let usual: Vec<_> = call
        .arguments
        .iter()
        .map(|(_, kind)| usual(*kind))
        .collect();
    // Four slices make so many cases that two destinations must do.
    let dests: &[[usize; MOST_DESTS]] = match (call.dests.len(), usual.len()) {
        (0, _) => &[[0, 0]],
        (1, 4) => &[[0, 0], [133, 0]],
        (1, _) => &[[0, 0], [1, 0], [64, 0], [65, 0], [66, 0], [133, 0]],
        (_, 4) => &[[0, 0], [400, 300]],
        _ => &[[0, 0], [131, 66], [132, 65], [300, 300]],
    };
    every_length_beside(group, call, &usual, dests);
    if call.dests.len() == 1 {
        let every: Vec<_> = (0..=LONGEST).map(|dest| [dest, 0]).collect();
        choices(group, call, &usual, &every);
    }
}

/// Every length in each argument, beside these slices in the others.
pub fn every_length_beside(
    group: &mut Group,
    call: &Call,
    others: &[Vec<Vec<u8>>],
    dests: &[[usize; MOST_DESTS]],
) {
    for (argument, (_, kind)) in call.arguments.iter().enumerate() {
        let mut slices = others.to_vec();
        for len in 0..=LONGEST {
            slices[argument] = contents(*kind, len);
            choices(group, call, &slices, dests);
        }
    }
}
