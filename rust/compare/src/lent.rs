//! What is lent to one call of the archive, with guard bytes around each slice and around the
//! numbers behind the pointers.
use crate::asked::{Asked, Numbers, MOST_DESTS, MOST_NUMBERS};
use std::sync::OnceLock;

const GUARD: usize = 16;
/// Around an argument: a scan that runs on past its end would take FF for more of a run.
const ARGUMENT_GUARD: u8 = 0xFF;
const MOST_SLICES: usize = 5;

#[derive(Default)]
struct Guarded {
    bytes: Vec<u8>,
    guard: u8,
}

impl Guarded {
    fn fill(&mut self, content: &[u8], guard: u8) {
        self.guard = guard;
        self.bytes.clear();
        self.bytes.resize(GUARD, guard);
        self.bytes.extend_from_slice(content);
        self.bytes.resize(content.len() + 2 * GUARD, guard);
    }

    fn content(&self) -> &[u8] {
        &self.bytes[GUARD..self.bytes.len() - GUARD]
    }

    fn is_whole(&self) -> bool {
        let (head, rest) = self.bytes.split_at(GUARD);
        let tail = &rest[rest.len() - GUARD..];
        head.iter().chain(tail).all(|&b| b == self.guard)
    }

    fn pointer(&mut self) -> *mut u8 {
        self.bytes[GUARD..].as_mut_ptr()
    }
}

/// A lent slice or destination as C sees it. A slice's pointer is mutable too, so that a write
/// through it would be seen and not be undefined.
pub struct Part {
    pub at: *mut u8,
    pub len: usize,
}

fn parts<const N: usize>(lent: &mut [Guarded]) -> [Part; N] {
    let mut lent = lent.iter_mut();
    std::array::from_fn(|_| {
        let one = lent.next().expect("no call takes more");
        Part {
            at: one.pointer(),
            len: one.content().len(),
        }
    })
}

pub struct Lent {
    slices: [Guarded; MOST_SLICES],
    dests: [Guarded; MOST_DESTS],
    /// A guard before the first and after each.
    answers: [u64; 2 * MOST_NUMBERS + 1],
}

impl Default for Lent {
    fn default() -> Self {
        let empty = || {
            let mut slice = Guarded::default();
            slice.fill(&[], ARGUMENT_GUARD);
            slice
        };
        Lent {
            slices: std::array::from_fn(|_| empty()),
            dests: std::array::from_fn(|_| empty()),
            answers: [0; 2 * MOST_NUMBERS + 1],
        }
    }
}

impl Lent {
    pub fn fill(&mut self, asked: &Asked, salt: u8) {
        for (slice, content) in self.slices.iter_mut().zip(asked.slices) {
            slice.fill(content, ARGUMENT_GUARD);
        }
        for (which, dest) in self.dests.iter_mut().enumerate() {
            dest.fill(before(which, asked.dests[which], salt), !salt);
        }
        self.answers.fill(number_before(salt));
    }

    /// The first slices, as many as the call takes.
    pub fn slices<const N: usize>(&mut self) -> [Part; N] {
        parts(&mut self.slices)
    }

    /// The first destinations, as many as the call takes.
    pub fn dests<const N: usize>(&mut self) -> [Part; N] {
        parts(&mut self.dests)
    }

    /// The pointers for the first answers, as many as the call has; to be taken last, after the
    /// slices.
    pub fn answers<const N: usize>(&mut self) -> [*mut u64; N] {
        let first = self.answers.as_mut_ptr();
        std::array::from_fn(|i| first.wrapping_add(2 * i + 1))
    }

    pub fn numbers(&self) -> Numbers {
        std::array::from_fn(|i| self.answers[2 * i + 1])
    }

    pub fn left_in_dests(&self) -> [&[u8]; MOST_DESTS] {
        self.dests.each_ref().map(Guarded::content)
    }

    /// Whether every lent byte but the destinations' own, and every guard, is as it was.
    pub fn is_whole(&self, asked: &Asked, salt: u8) -> bool {
        let mut arguments = self.slices.iter().zip(asked.slices);
        arguments.all(|(lent, content)| lent.content() == *content && lent.is_whole())
            && self.dests.iter().all(Guarded::is_whole)
            && self
                .answers
                .iter()
                .step_by(2)
                .all(|guard| *guard == number_before(salt))
    }
}

/// Calls a function of the archive with the slices that are lent and, after the semicolon, the
/// destinations; after another semicolon with a number. It has one answer.
macro_rules! lend {
    ($lent:ident, $call:path, $($slice:ident),*; $($dest:ident),* $(; $number:expr)?) => {{
        let [$($slice),*] = $lent.slices();
        let [$($dest),*] = $lent.dests();
        let [answer] = $lent.answers();
        // SAFETY: `Lent` owns the bytes, each slice is good for its length, and no two overlap.
        unsafe {
            $call(
                $($slice.at, $slice.len,)*
                $($dest.at, $dest.len,)*
                $($number,)?
                answer.cast(),
            )
        }
    }};
}
pub(crate) use lend;

const NUMBER_BEFORE: u64 = 0xA5C3_5A3C_9669_7800;

/// What the number behind a pointer is before a call: no answer of any call.
pub fn number_before(salt: u8) -> u64 {
    NUMBER_BEFORE | u64::from(salt)
}

pub fn is_as_before(number: u64) -> bool {
    number & !0xFF == NUMBER_BEFORE
}

/// What stands in the first or the second destination before a call. It differs from case to
/// case, so that a byte written can't always be the byte that was there.
pub fn before(which: usize, len: usize, salt: u8) -> &'static [u8] {
    const MOST: usize = 40_000;
    static PATTERN: OnceLock<Vec<u8>> = OnceLock::new();
    let pattern = PATTERN.get_or_init(|| {
        let mut random = crate::inputs::Xorshift::new(0x5EED);
        let bytes = (0..MOST_DESTS * MOST).map(|_| random.next() as u8);
        bytes.collect()
    });
    &pattern[which * MOST..][usize::from(salt)..][..len]
}
