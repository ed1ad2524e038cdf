//! Of pairs.
use super::{key_room, pair_room, Answer};
use crate::inputs::Inputs;
use crate::words;

pub fn reverse_pair(inputs: &Inputs) -> Answer {
    let mut dest = pair_room();
    let there = joistdenim::reverse_pair(&inputs.pair("a"), &mut dest)?;
    Ok(words::of_pair(there, &dest))
}

pub fn apply_pair(inputs: &Inputs) -> Answer {
    let mut dest = key_room();
    let length = joistdenim::apply_pair(&inputs.pair("a"), &inputs.key("key"), &mut dest)?;
    Ok(words::of_key(&dest[..length]))
}

pub fn compose_pairs(inputs: &Inputs) -> Answer {
    let mut dest = pair_room();
    let there = joistdenim::compose_pairs(&inputs.pair("a"), &inputs.pair("b"), &mut dest)?;
    Ok(words::of_pair(there, &dest))
}
