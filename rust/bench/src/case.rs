//! A case: one call on inputs of one size, with its three sides.
use crate::floor::floor;
use crate::lent::{room, Dests, Slices};
use crate::timing::{Passes, Timed};
use std::hint::black_box;
use std::rc::Rc;

pub struct Case {
    pub call: &'static str,
    /// The bytes of each key.
    pub key: usize,
    /// The pivots of the table, the entries kept of the bucket, or those of one with an index; 0
    /// for a call without any.
    pub size: usize,
    pub library: Timed,
    pub reference: Timed,
    pub floor: Timed,
}

/// One input, and how many bytes the call writes to each destination, for the floor.
struct Input<const S: usize, const D: usize> {
    slices: Slices<S>,
    written: [usize; D],
}

fn passes<const S: usize, const D: usize>(
    inputs: &Rc<[Input<S, D>]>,
    call: impl Fn(&Input<S, D>, &mut Dests<D>) -> usize + 'static,
) -> Passes {
    let inputs = Rc::clone(inputs);
    let mut dests = room();
    Box::new(move |passes| {
        for _ in 0..passes {
            for input in inputs.iter() {
                // Nothing is known of the input, and all that is answered or written is used.
                black_box(call(black_box(input), black_box(&mut dests)));
            }
        }
    })
}

impl Case {
    /// `written` turns the answer into the bytes written to each destination. Both sides must
    /// answer and write the same, or there is nothing to measure.
    pub fn new<const S: usize, const D: usize>(
        (call, key, size): (&'static str, usize, usize),
        inputs: &[Slices<S>],
        library: impl Fn(&Slices<S>, &mut Dests<D>) -> usize + 'static,
        reference: impl Fn(&Slices<S>, &mut Dests<D>) -> usize + 'static,
        written: impl Fn(usize) -> [usize; D],
    ) -> Self {
        let input = |slices: &Slices<S>| {
            let (mut ours, mut theirs) = (room(), room());
            let answer = library(slices, &mut ours);
            assert_eq!(answer, reference(slices, &mut theirs), "{call}");
            assert_eq!(ours, theirs, "{call}");
            Input {
                slices: slices.clone(),
                written: written(answer),
            }
        };
        let inputs: Rc<[_]> = inputs.iter().map(input).collect();
        Case {
            call,
            key,
            size,
            library: Timed::new(passes(&inputs, move |i, d| library(&i.slices, d))),
            reference: Timed::new(passes(&inputs, move |i, d| reference(&i.slices, d))),
            floor: Timed::new(passes(&inputs, |i, d| floor(&i.slices, &i.written, d))),
        }
    }

    fn sides(&mut self) -> [&mut Timed; 3] {
        [&mut self.library, &mut self.reference, &mut self.floor]
    }

    pub fn calibrate(&mut self) {
        self.sides().into_iter().for_each(Timed::calibrate);
    }

    /// A sample of each side. Another side begins in each round, so that none always follows the
    /// same one.
    pub fn sample(&mut self, round: usize) {
        let mut sides = self.sides();
        sides.rotate_left(round % 3);
        sides.into_iter().for_each(Timed::sample);
    }
}
