//! The two sides of a case.

/// The library's and the reference's side of a call, from one text, so that both are lent the
/// same. Slices that are read stand before the semicolon, destinations after it, and after another
/// one a number. A refusal stops the program: the inputs are good ones.
macro_rules! case {
    ($size:expr, $inputs:expr, $call:ident($($slice:ident),*; $($dest:ident),* $(; $number:expr)?),
     |$ok:pat_param| $answer:expr, $written:expr) => {
        crate::case::Case::new(
            (stringify!($call), $size.0, $size.1),
            $inputs,
            move |[$($slice),*], [$($dest),*]| {
                let $ok = joistdenim::$call($($slice,)* $($dest,)* $($number)?)
                    .expect("a good input");
                $answer
            },
            move |[$($slice),*], [$($dest),*]| {
                let $ok = reference::$call($($slice,)* $($dest,)* $($number)?)
                    .expect("a good input");
                $answer
            },
            $written,
        )
    };
}
pub(crate) use case;
