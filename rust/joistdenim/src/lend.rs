//! How slices are lent to the archive.

/// Lends slices, and after the semicolon destinations, to a function of the archive that takes
/// nothing else but the pointer for its answer and, after another semicolon, a number before it.
/// Gives the answer or the refusal.
macro_rules! lend {
    ($call:path, $($slice:ident),*; $($dest:ident),* $(; $number:ident)?) => {{
        let mut answer = 0;
        // SAFETY: the slices are good for their lengths, and each destination, borrowed alone,
        // overlaps none.
        let number = unsafe {
            $call(
                $($slice.as_ptr(), $slice.len(),)*
                $($dest.as_mut_ptr(), $dest.len(),)*
                $($number,)?
                &mut answer,
            )
        };
        crate::refusal::Refusal::check(number).map(|()| answer)
    }};
}
pub(crate) use lend;
