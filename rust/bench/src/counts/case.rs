//! A case: pairs of keys of one length that differ at one place, counted in both ways.
use crate::inputs::{inputs, Xorshift};
use crate::lent::Slices;
use crate::timing::{ratio, Passes, Timed};
use std::hint::black_box;
use std::rc::Rc;

type Count = unsafe extern "C" fn(*const u8, usize, *const u8, usize) -> u64;

extern "C" {
    fn count_by_words(a: *const u8, a_len: usize, b: *const u8, b_len: usize) -> u64;
    fn count_by_bytes(a: *const u8, a_len: usize, b: *const u8, b_len: usize) -> u64;
}

fn call(count: Count, [a, b]: &Slices<2>) -> u64 {
    // SAFETY: the slices are good for their lengths, and both functions only read.
    unsafe { count(a.as_ptr(), a.len(), b.as_ptr(), b.len()) }
}

/// One loop for both sides, so that they differ in what they call alone.
fn passes(pairs: &Rc<[Slices<2>]>, count: Count) -> Passes {
    let pairs = Rc::clone(pairs);
    Box::new(move |passes| {
        for _ in 0..passes {
            for pair in pairs.iter() {
                // Nothing is known of the pair, and the count is used.
                black_box(call(count, black_box(pair)));
            }
        }
    })
}

/// Two keys that differ at this place, or nowhere where it is past their end.
fn pair(random: &mut Xorshift, key: usize, place: usize) -> Slices<2> {
    let left = random.bytes(key);
    let mut right = left.clone();
    if let Some(byte) = right.get_mut(place) {
        *byte ^= 1 + random.below(0xFF) as u8;
    }
    [left.into(), right.into()]
}

pub struct Case {
    /// The bytes of each key.
    key: usize,
    differ: &'static str,
    pairs: usize,
    words: Timed,
    bytes: Timed,
}

impl Case {
    /// Both sides must count the bytes before the place, or there is nothing to measure.
    pub fn new(random: &mut Xorshift, key: usize, differ: &'static str, place: usize) -> Self {
        let pairs: Rc<[_]> = inputs(|_| pair(random, key, place)).into();
        for pair in pairs.iter() {
            for (side, count) in [
                ("words", count_by_words as Count),
                ("bytes", count_by_bytes),
            ] {
                assert_eq!(
                    call(count, pair),
                    place as u64,
                    "by {side}, {key} bytes, {differ}"
                );
            }
        }
        Case {
            key,
            differ,
            pairs: pairs.len(),
            words: Timed::new(passes(&pairs, count_by_words)),
            bytes: Timed::new(passes(&pairs, count_by_bytes)),
        }
    }

    fn sides(&mut self) -> [&mut Timed; 2] {
        [&mut self.words, &mut self.bytes]
    }

    pub fn calibrate(&mut self) {
        self.sides().into_iter().for_each(Timed::calibrate);
    }

    /// A sample of each side; they take turns to begin.
    pub fn sample(&mut self, round: usize) {
        let mut sides = self.sides();
        sides.rotate_left(round % 2);
        sides.into_iter().for_each(Timed::sample);
    }

    /// The row of the table: nanoseconds of a call, and the ratio.
    pub fn print(&self) {
        let (key, differ) = (self.key, self.differ);
        let call_nanos = |side: &Timed| side.median() / self.pairs as f64;
        println!(
            "| {key} | {differ} | {:.1} | {:.1} | {:.2} |",
            call_nanos(&self.words),
            call_nanos(&self.bytes),
            ratio(&self.words, &self.bytes)
        );
    }
}
