//! Samples of one side of a case, and what is made of two sides' samples.
use std::time::Instant;

/// What a sample should take: much longer than reading the clock.
const SAMPLE_NANOS: f64 = 50_000.0;

/// Runs all inputs of a case so many times.
pub type Passes = Box<dyn FnMut(usize)>;

pub struct Timed {
    run: Passes,
    passes: usize,
    /// The time of one pass, a sample for each round.
    samples: Vec<f64>,
}

impl Timed {
    pub fn new(run: Passes) -> Self {
        Timed {
            run,
            passes: 1,
            samples: vec![],
        }
    }

    fn pass_nanos(&mut self, passes: usize) -> f64 {
        let start = Instant::now();
        (self.run)(passes);
        start.elapsed().as_nanos() as f64 / passes as f64
    }

    /// Finds how many passes make a sample, each side for itself.
    pub fn calibrate(&mut self) {
        // The least of a few: whatever else the machine does only adds to it.
        let least = (0..8).map(|_| self.pass_nanos(1)).fold(f64::MAX, f64::min);
        self.passes = (SAMPLE_NANOS / least.max(1.0)).ceil() as usize;
    }

    pub fn sample(&mut self) {
        // The other cases have taken the caches since the last round.
        (self.run)(1);
        let nanos = self.pass_nanos(self.passes);
        self.samples.push(nanos);
    }

    /// The median of the rounds' samples.
    #[allow(dead_code)] // `bench` prints no times.
    pub fn median(&self) -> f64 {
        let mut samples = self.samples.clone();
        samples.sort_by(f64::total_cmp);
        samples[samples.len() / 2]
    }
}

/// The ratios of two sides, one for each round: what slows a whole round is in both.
fn ratios(a: &Timed, b: &Timed) -> Vec<f64> {
    let pairs = a.samples.iter().zip(&b.samples);
    let mut ratios: Vec<f64> = pairs.map(|(a, b)| a / b).collect();
    ratios.sort_by(f64::total_cmp);
    ratios
}

/// The median of the rounds' ratios.
pub fn ratio(a: &Timed, b: &Timed) -> f64 {
    let ratios = ratios(a, b);
    ratios[ratios.len() / 2]
}

/// The width of the middle half of the rounds' ratios, as a part of their median.
pub fn spread(a: &Timed, b: &Timed) -> f64 {
    let ratios = ratios(a, b);
    let at = |quarters| ratios[(ratios.len() - 1) * quarters / 4];
    (at(3) - at(1)) / at(2)
}
