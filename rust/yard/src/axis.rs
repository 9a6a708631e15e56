//! An axis of a chart, with round ticks.

/// An axis from its first tick to its last.
#[derive(Clone, PartialEq, Debug)]
pub struct Axis {
    first: i64,
    step: i64,
    steps: i64,
}

impl Axis {
    /// The axis that covers all values in about `wanted` steps.
    pub fn covering(values: impl IntoIterator<Item = i64>, wanted: i64) -> Axis {
        let (low, high) = ends(values).unwrap_or((0, 0));
        let step = round_step(high - low, wanted);
        let first = low.div_euclid(step);
        let last = (high + step - 1).div_euclid(step);
        Axis {
            first: first * step,
            step,
            steps: (last - first).max(1),
        }
    }

    /// The values of the ticks, rising.
    pub fn ticks(&self) -> impl Iterator<Item = i64> + '_ {
        (0..=self.steps).map(|tick| self.first + tick * self.step)
    }

    /// Whether there are ticks on both sides of 0. There is one at 0 then too.
    pub fn spans_zero(&self) -> bool {
        self.first < 0 && self.first + self.steps * self.step > 0
    }

    /// Where a value lies: 0 at the first tick, 1 at the last.
    pub fn part(&self, value: i64) -> f64 {
        (value - self.first) as f64 / (self.steps * self.step) as f64
    }
}

/// The least and the largest value.
fn ends(values: impl IntoIterator<Item = i64>) -> Option<(i64, i64)> {
    let pairs = values.into_iter().map(|value| (value, value));
    pairs.reduce(|(low, high), (value, _)| (low.min(value), high.max(value)))
}

/// The least of 1, 2, 5, 10, 20, 50, … that covers `range` in `wanted` steps.
fn round_step(range: i64, wanted: i64) -> i64 {
    let mut unit = 1;
    loop {
        let steps = [unit, 2 * unit, 5 * unit];
        if let Some(step) = steps.into_iter().find(|step| step * wanted >= range) {
            return step;
        }
        unit *= 10;
    }
}

#[cfg(test)]
mod tests {
    use super::*;

    fn ticks(values: &[i64]) -> Vec<i64> {
        Axis::covering(values.iter().copied(), 6).ticks().collect()
    }

    #[test]
    fn ticks_are_round_and_cover_all_values() {
        assert_eq!(ticks(&[4, 7]), [4, 5, 6, 7]);
        assert_eq!(
            ticks(&[-32_768, 32_767]),
            [-40_000, -20_000, 0, 20_000, 40_000]
        );
        assert_eq!(ticks(&[103, 160]), [100, 110, 120, 130, 140, 150, 160]);
        assert_eq!(
            ticks(&[0, 23_000_000]),
            [0, 5_000_000, 10_000_000, 15_000_000, 20_000_000, 25_000_000]
        );
    }

    #[test]
    fn ticks_below_0_are_round_and_cover_all_values() {
        assert_eq!(ticks(&[-7, -4]), [-7, -6, -5, -4]);
        assert_eq!(
            ticks(&[-160, -103]),
            [-160, -150, -140, -130, -120, -110, -100]
        );
        assert_eq!(ticks(&[-9, 31]), [-10, 0, 10, 20, 30, 40]);
        assert_eq!(
            ticks(&[-23_000_000, 23_000_000]),
            [-3, -2, -1, 0, 1, 2, 3].map(|tick| tick * 10_000_000)
        );
    }

    #[test]
    fn one_value_or_none_still_has_an_axis() {
        assert_eq!(ticks(&[9]), [9, 10]);
        assert_eq!(ticks(&[-9]), [-9, -8]);
        assert_eq!(ticks(&[]), [0, 1]);
    }

    #[test]
    fn an_axis_spans_0_with_a_tick_at_it() {
        let spans_zero = |values: &[i64]| {
            let axis = Axis::covering(values.iter().copied(), 6);
            assert!(!axis.spans_zero() || axis.ticks().any(|tick| tick == 0));
            axis.spans_zero()
        };
        for values in [[-1, 1], [-1, 1_000_000], [-1_000_000, 1], [-23_000_000, 7]] {
            assert!(spans_zero(&values));
        }
        for values in [&[0, 7][..], &[-7, 0], &[3, 9], &[-9, -3], &[0], &[-1], &[]] {
            assert!(!spans_zero(values));
        }
    }

    #[test]
    fn parts_run_from_the_first_tick_to_the_last() {
        let axis = Axis::covering([100, 160], 6);
        assert_eq!(
            (axis.part(100), axis.part(130), axis.part(160)),
            (0.0, 0.5, 1.0)
        );
    }
}
