//! A logarithmic axis.

/// What stays free at both ends, as a factor.
const MARGIN: f64 = 1.1;
/// The ratios marked in each power of ten.
const STEPS: [&str; 6] = ["1", "1.5", "2", "3", "5", "7"];

pub struct Scale {
    least: f64,
    most: f64,
    left: f64,
    width: f64,
}

impl Scale {
    /// From `left` on, so wide that all of these ratios are on it, and 1.
    pub fn over(ratios: impl Iterator<Item = f64>, left: f64, width: f64) -> Self {
        let (least, most) = ratios.fold((1.0_f64, 1.0_f64), |(least, most), ratio| {
            (least.min(ratio), most.max(ratio))
        });
        Scale {
            least: least / MARGIN,
            most: most * MARGIN,
            left,
            width,
        }
    }

    pub fn x(&self, ratio: f64) -> f64 {
        let part = (ratio / self.least).ln() / (self.most / self.least).ln();
        self.left + self.width * part
    }

    /// Where the axis ends.
    pub fn end(&self) -> f64 {
        self.left + self.width
    }

    /// The ratios to mark.
    pub fn ticks(&self) -> impl Iterator<Item = f64> + '_ {
        (-2..=2)
            .flat_map(|power| STEPS.map(|step| format!("{step}e{power}")))
            .map(|tick| tick.parse().expect("a number"))
            .filter(|tick| (self.least..=self.most).contains(tick))
    }
}

#[cfg(test)]
mod tests {
    use super::*;

    fn close(a: f64, b: f64) -> bool {
        (a - b).abs() < 1e-9
    }

    #[test]
    fn ends_and_middle() {
        let scale = Scale::over([0.1, 10.0].into_iter(), 50.0, 200.0);
        assert!(close(scale.x(0.1 / MARGIN), 50.0));
        assert!(close(scale.x(1.0), 150.0));
        assert!(close(scale.x(10.0 * MARGIN), 250.0));
    }

    #[test]
    fn equal_factors_are_equally_long() {
        let scale = Scale::over([0.1, 2.0].into_iter(), 50.0, 200.0);
        let twice = |ratio| scale.x(2.0 * ratio) - scale.x(ratio);
        assert!(close(twice(0.1), twice(1.0)));
        assert!(twice(1.0) > 1.0);
    }

    #[test]
    fn one_is_always_marked() {
        for ratio in [0.5, 1.0, 2.0] {
            let scale = Scale::over([ratio].into_iter(), 0.0, 1.0);
            assert!(scale.ticks().any(|tick| tick == 1.0));
        }
    }

    #[test]
    fn marks_on_the_axis_only() {
        let scale = Scale::over([0.16, 1.9].into_iter(), 0.0, 1.0);
        let ticks: Vec<f64> = scale.ticks().collect();
        assert_eq!(ticks, [0.15, 0.2, 0.3, 0.5, 0.7, 1.0, 1.5, 2.0]);
    }
}
