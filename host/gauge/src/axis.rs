//! Axes of a drawing: what they span, and the round numbers on them.

/// The least and the greatest number on an axis.
pub type Span = (f64, f64);

/// The least and the greatest of the finite values, at least a little apart.
pub fn span(values: impl Iterator<Item = f64>) -> Span {
    let wider = |(low, high): Span, value: f64| (low.min(value), high.max(value));
    let (low, high) = values
        .filter(|value| value.is_finite())
        .fold((f64::INFINITY, f64::NEG_INFINITY), wider);
    if low > high {
        return (0.0, 1.0);
    }
    // A steady value has its line in the middle; what rounding leaves of one is not blown up.
    let size = low.abs().max(high.abs());
    match high - low {
        apart if apart > 1e-4 * size => (low, high),
        _ if size == 0.0 => (-0.5, 0.5),
        _ => (low - 0.5 * size, high + 0.5 * size),
    }
}

/// Round numbers on an axis.
pub struct Ticks {
    step: f64,
    /// The numbers, upward.
    pub at: Vec<f64>,
}

impl Ticks {
    /// At most some ten numbers within a span, or as few as have room by `fits`; whole ones where that is wanted.
    pub fn within(span: Span, whole: bool, fits: impl Fn(&Ticks) -> bool) -> Ticks {
        let some = |most: i32| Ticks::at_most(span, whole, f64::from(most));
        let fitting = (3..=10).rev().map(some).find(fits);
        fitting.unwrap_or_else(|| some(2))
    }

    // One that is missed by a sample in thousands counts as within.
    fn at_most((low, high): Span, whole: bool, most: f64) -> Ticks {
        let least = (high - low) / most;
        let power = 10f64.powf(least.log10().floor());
        let steps = [1.0, 2.0, 5.0].map(|digit| digit * power);
        let step = steps.into_iter().find(|step| *step >= least);
        let step = step.unwrap_or(10.0 * power);
        let step = if whole { step.max(1.0) } else { step };
        let first = (low / step - 1e-3).ceil() as i64;
        let last = (high / step + 1e-3).floor() as i64;
        let at = (first..=last).map(|k| k as f64 * step).collect();
        Ticks { step, at }
    }

    /// The number as a text, with the digits that the step between numbers needs.
    pub fn name(&self, value: f64) -> String {
        const MOST: f64 = 9.0;
        let digits = -self.step.log10().floor();
        if value == 0.0 {
            return "0".to_string();
        }
        if digits > MOST || value.abs() >= 1e12 {
            let size = value.abs().log10().floor();
            return format!("{value:.0$e}", (size + digits).max(0.0) as usize);
        }
        format!("{value:.0$}", digits.max(0.0) as usize)
    }

    /// Letters of the longest name.
    pub fn longest(&self) -> usize {
        let names = self.at.iter().map(|value| self.name(*value).len());
        names.max().unwrap_or(0)
    }
}

#[cfg(test)]
mod tests {
    use super::*;

    fn names(span: Span, whole: bool) -> Vec<String> {
        let ticks = Ticks::within(span, whole, |_| true);
        ticks.at.iter().map(|at| ticks.name(*at)).collect()
    }

    #[test]
    fn ticks_are_round_and_few() {
        let tens: Vec<String> = (0..=10).map(|k| (10 * k).to_string()).collect();
        assert_eq!(names((0.0, 100.0), false), tens);
        assert_eq!(
            names((-0.3, 0.9), false),
            ["-0.2", "0", "0.2", "0.4", "0.6", "0.8"]
        );
        assert_eq!(names((0.25, 0.250_001), false)[1], "0.2500001");
        assert_eq!(names((1e30, 2e30), false)[..2], ["1.0e30", "1.2e30"]);
    }

    #[test]
    fn samples_are_counted_in_whole_numbers() {
        assert_eq!(names((0.0, 3.0), true), ["0", "1", "2", "3"]);
        assert_eq!(names((0.0, 0.5), true), ["0"]);
    }

    #[test]
    fn there_are_no_more_than_fit() {
        let few = Ticks::within((0.0, 1e6), true, |ticks| ticks.at.len() <= 4);
        assert_eq!(few.at.len(), 3);
        let none = Ticks::within((0.0, 1e6), true, |_| false);
        assert_eq!(none.at, [0.0, 5e5, 1e6]);
    }

    #[test]
    fn a_span_is_never_empty() {
        assert_eq!(span([].into_iter()), (0.0, 1.0));
        assert_eq!(span([f64::NAN, 2.0].into_iter()), (1.0, 3.0));
        assert_eq!(span([0.0].into_iter()), (-0.5, 0.5));
        assert_eq!(span([-1.0, 1.0].into_iter()), (-1.0, 1.0));
        let (low, high) = span([1e30, 1e30].into_iter());
        assert!(low < high);
    }
}
