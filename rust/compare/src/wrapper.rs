//! The safe wrapper against the reference: it must hand on what the archive answers.
use crate::call::Hex;
use crate::group::Group;
use std::fmt::Debug;

pub fn same<T: PartialEq + Debug>(
    group: &mut Group,
    call: &str,
    slices: &[&[u8]],
    wrapper: Result<T, joistdenim::Refusal>,
    reference: Result<T, reference::Refusal>,
) {
    let wrapper = wrapper.map_err(|refusal| refusal.number());
    let reference = reference.map_err(|refusal| refusal.number());
    group.check(wrapper == reference, || {
        let slices: Vec<String> = slices.iter().map(|s| Hex(s).to_string()).collect();
        let case = slices.join(", ");
        format!("{call}({case}): wrapper {wrapper:?}; reference {reference:?}")
    });
}

/// The result of a call, and what it leaves in a destination of this length and around it.
pub fn into<R>(len: usize, call: impl Fn(&mut [u8]) -> R) -> (R, Vec<u8>) {
    let mut bytes = vec![7; len + 16];
    (call(&mut bytes[8..8 + len]), bytes)
}

/// The result of a call, and what it leaves in two destinations and around them.
pub fn into_two<R>(
    dests: [usize; 2],
    call: impl Fn(&mut [u8], &mut [u8]) -> R,
) -> (R, [Vec<u8>; 2]) {
    let [mut first, mut second] = dests.map(|len| vec![7; len + 16]);
    let result = call(&mut first[8..8 + dests[0]], &mut second[8..8 + dests[1]]);
    (result, [first, second])
}

/// One call of the wrapper and of the reference, with what is lent to write to named after it.
macro_rules! both {
    ($group:ident, $into:ident($dests:expr), $call:ident($($slice:expr),*; $($dest:ident),*)) => {{
        use crate::wrapper::{$into, same};
        let (got, left) = $into($dests, |$($dest),*| joistdenim::$call($($slice,)* $($dest),*));
        let (wanted, right) = $into($dests, |$($dest),*| reference::$call($($slice,)* $($dest),*));
        let slices: &[&[u8]] = &[$($slice),*];
        same($group, stringify!($call), slices, got, wanted);
        same($group, stringify!($call), slices, Ok(left), Ok(right));
    }};
}
pub(crate) use both;

/// One call of both, with a destination of this length.
macro_rules! into_both {
    ($group:ident, $dest:expr, $call:ident($($slice:expr),*)) => {
        crate::wrapper::both!($group, into($dest), $call($($slice),*; dest))
    };
}
pub(crate) use into_both;

/// One call of both, with two destinations of these lengths.
macro_rules! two_into_both {
    ($group:ident, $dests:expr, $call:ident($($slice:expr),*)) => {
        crate::wrapper::both!($group, into_two($dests), $call($($slice),*; first, second))
    };
}
pub(crate) use two_into_both;
