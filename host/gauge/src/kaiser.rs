//! Prototypes of a resampler: a sinc under a Kaiser window, laid as wrapped phase reads it at steps of whole phases.

use std::f64::consts::PI;

/// The taps of a phase that it takes to hold off so many dB, with a transition of so many cycles a value (Kaiser 1974).
pub fn taps_for(decibels: f64, transition: f64) -> usize {
    let taps = (decibels - 7.95) / (14.36 * transition);
    taps.ceil().clamp(1.0, 1e6) as usize
}

/// A prototype for steps of whole phases: a lowpass that ends here, in cycles a value, and holds off so many dB. Each phase multiplies a steady value by 1, and is as late as the others, so that a ramp is even.
///
/// It is laid as `lay::laid` does, but for phase 0. Such a step reads phase 0 only on a value, with phase 1: (1 - P) times the one and P times the other (01, section 5). Phase 0 is what makes of that
/// the number of the filter there, so no level swings.
pub fn prototype(phases: usize, taps: usize, end: f64, decibels: f64) -> Vec<f32> {
    let natural = windowed_sinc(phases, taps, end, decibels);
    let phase = |p: usize| {
        let numbers = (0..taps).map(|t| natural[(t + 1) * phases - p]).collect();
        even(numbers, taps as f64 / 2.0 - 1.0 + p as f64 / phases as f64)
    };
    let mut rows: Vec<Vec<f32>> = (1..phases).map(|p| as_f32(&phase(p))).collect();
    let on_a_value = phase(phases);
    let share = phases as f64;
    let first = rows[0].iter().zip(&on_a_value);
    let first = first.map(|(next, wanted)| (share * f64::from(*next) - wanted) / (share - 1.0));
    rows.insert(0, as_f32(&first.collect::<Vec<f64>>()));
    (0..phases * taps)
        .map(|at| rows[at % phases][at / phases])
        .collect()
}

// What is left of a zero by rounding is one.
fn as_f32(numbers: &[f64]) -> Vec<f32> {
    let number = |number: &f64| if number.abs() < 1e-9 { 0.0 } else { *number };
    numbers.iter().map(|n| number(n) as f32).collect()
}

// The numbers with a sum of 1 and their centre here, each changed by its share of what is missing. A single one has no centre.
fn even(numbers: Vec<f64>, centre: f64) -> Vec<f64> {
    let sum: f64 = numbers.iter().sum();
    let numbers: Vec<f64> = numbers.into_iter().map(|number| number / sum).collect();
    let away = |at: usize| at as f64 - centre;
    let moment = |power: i32, of: fn(f64) -> f64| -> f64 {
        let numbers = numbers.iter().enumerate();
        numbers.map(|(at, n)| of(*n) * away(at).powi(power)).sum()
    };
    let (all, first, second) = (
        moment(0, f64::abs),
        moment(1, f64::abs),
        moment(2, f64::abs),
    );
    let whole = all * second - first * first;
    if whole < 1e-6 {
        return numbers;
    }
    let late = moment(1, |number| number);
    let (flat, slope) = (late * first / whole, -late * all / whole);
    let numbers = numbers.iter().enumerate();
    let changed = numbers.map(|(at, n)| n + n.abs() * (flat + slope * away(at)));
    changed.collect()
}

// In natural order, one number more than phases × taps, so that it is symmetric.
fn windowed_sinc(phases: usize, taps: usize, end: f64, decibels: f64) -> Vec<f64> {
    let half = (phases * taps) as f64 / 2.0;
    let shape = shape(decibels);
    let number = |at: usize| {
        let away = at as f64 - half;
        let angle = 2.0 * PI * end * away / phases as f64;
        let sinc = if away == 0.0 {
            1.0
        } else {
            angle.sin() / angle
        };
        let inside = (1.0 - (away / half).powi(2)).max(0.0).sqrt();
        sinc * bessel(shape * inside) / bessel(shape)
    };
    (0..=phases * taps).map(number).collect()
}

// Kaiser's window for so many dB.
fn shape(decibels: f64) -> f64 {
    match decibels {
        high if high > 50.0 => 0.1102 * (high - 8.7),
        some if some > 21.0 => 0.5842 * (some - 21.0).powf(0.4) + 0.07886 * (some - 21.0),
        _ => 0.0,
    }
}

// The modified Bessel function of order 0, by its series.
fn bessel(x: f64) -> f64 {
    let (mut term, mut sum) = (1.0, 1.0);
    for k in 1..60 {
        term *= (x / 2.0 / f64::from(k)).powi(2);
        sum += term;
    }
    sum
}

#[cfg(test)]
mod tests {
    use super::*;
    use crate::ramp::unevenness;
    use gauge_line::Settings;

    // Levels on values too, where another prototype in wrapped phase swings.
    #[test]
    fn a_ramp_is_even_at_steps_of_whole_phases() {
        for (phases, taps, step) in [
            (16, 6, 0.9375),
            (64, 12, 3.765625),
            (2, 8, 1.0),
            (4, 3, 0.25),
        ] {
            let settings = Settings {
                phases,
                phase_taps: taps,
                step,
                ..Settings::default()
            };
            let off = unevenness(&settings, &prototype(phases, taps, 0.4, 60.0));
            let off = off.unwrap().unwrap().worst;
            assert!(off < 1e-3, "{phases} {taps} {step}: {off}");
        }
    }
}
