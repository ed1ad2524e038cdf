//! The number of rounds that a program is asked for.
use std::env;

const ROUNDS: usize = 201;

/// The number of rounds, where the arguments are good.
pub fn rounds() -> Option<usize> {
    let mut words = env::args().skip(1);
    match (words.next(), words.next()) {
        (None, _) => Some(ROUNDS),
        (Some(word), None) => word.parse().ok().filter(|&rounds| rounds > 0),
        _ => None,
    }
}
