//! A prototype in natural order, as filter design gives it, laid as the resampler reads it.

/// The prototype h of `phases` × `taps` numbers laid so that `h[(t + 1) × P − p]` stands at t × P + p: the row of each tap backwards.
///
/// A level that is due mu of an interval behind the newest value reads phase q = (1 − mu) × P. Tap t then weighs a value t + mu intervals old, whose number in h is (t + mu) × P = (t + 1) × P − q. So
/// `h[0]` is read nowhere, and 0 stands where h has ended, at phase 0 of the last tap; a list of one number more has its last one there, as symmetric filters of odd length do. A list of any other length
/// comes back as it is, for the opening to refuse.
pub fn laid(natural: &[f32], phases: usize, taps: usize) -> Vec<f32> {
    let whole = phases.checked_mul(taps);
    let fits = whole.is_some_and(|whole| natural.len() == whole || natural.len() == whole + 1);
    if !fits {
        return natural.to_vec();
    }
    let place = |at: usize| (at / phases + 1) * phases - at % phases;
    (0..phases * taps)
        .map(|at| natural.get(place(at)).copied().unwrap_or(0.0))
        .collect()
}

#[cfg(test)]
mod tests {
    use super::*;
    use gauge_line::PolyphaseResampF32;
    use std::f64::consts::PI;

    const PHASES: usize = 64;
    const TAPS: usize = 16;
    const STEP: f32 = 0.9375;

    // A lowpass of a sinc under a Hamming window, P × T long, with a gain of 1 in each phase.
    fn windowed_sinc() -> Vec<f32> {
        let last = (PHASES * TAPS - 1) as f64;
        let tap = |at: usize| {
            let x = PI * (at as f64 - last / 2.0) / PHASES as f64;
            let window = 0.54 - 0.46 * (2.0 * PI * at as f64 / last).cos();
            (window * x.sin() / x) as f32
        };
        (0..PHASES * TAPS).map(tap).collect()
    }

    // The levels of a wave of so many turns a value, numbered, from where every delay is filled.
    fn levels(prototype: &[f32], turns: f64) -> Vec<(usize, f64)> {
        let mut resampler = PolyphaseResampF32::from_taps(PHASES, TAPS, prototype, STEP).unwrap();
        let wave: Vec<f32> = (0..2000)
            .map(|n| (2.0 * PI * turns * f64::from(n)).sin() as f32)
            .collect();
        let mut out = [0.0; 4000];
        let moved = resampler.process_block(&wave, &mut out).unwrap();
        assert_eq!(moved.taken, wave.len());
        let levels = out[..moved.written].iter().map(|level| f64::from(*level));
        levels.enumerate().skip(2 * TAPS).collect()
    }

    // The power of the wave in the levels over the power of all else, in dB: the wave that is nearest by least squares.
    fn clean(levels: &[(usize, f64)], turns: f64) -> f64 {
        let turn = |k: usize| (2.0 * PI * turns * f64::from(STEP) * k as f64).sin_cos();
        let sum = |of: &dyn Fn(f64, f64, f64) -> f64| -> f64 {
            let values = levels.iter().map(|(k, level)| (turn(*k), *level));
            values.map(|((sin, cos), level)| of(sin, cos, level)).sum()
        };
        let (ss, cc, sc) = (
            sum(&|sin, _, _| sin * sin),
            sum(&|_, cos, _| cos * cos),
            sum(&|sin, cos, _| sin * cos),
        );
        let (ys, yc) = (sum(&|sin, _, y| y * sin), sum(&|_, cos, y| y * cos));
        let whole = ss * cc - sc * sc;
        let (a, b) = ((ys * cc - yc * sc) / whole, (yc * ss - ys * sc) / whole);
        let wave = sum(&|sin, cos, _| (a * sin + b * cos).powi(2));
        let rest = sum(&|sin, cos, y| (y - a * sin - b * cos).powi(2));
        10.0 * (wave / rest).log10()
    }

    // docs/float.md has these figures. At this step every 16th level falls on a value, where phases wrap.
    #[test]
    fn a_laid_prototype_follows_a_wave_and_a_natural_one_does_not() {
        let natural = windowed_sinc();
        let laid = laid(&natural, PHASES, TAPS);
        for (turns, wanted) in [(0.02, [54.3, 67.9, 22.8]), (0.08, [30.4, 66.2, 10.6])] {
            let all = levels(&laid, turns);
            let between: Vec<(usize, f64)> =
                all.iter().copied().filter(|(k, _)| k % 16 > 0).collect();
            let figures =
                [&all, &between, &levels(&natural, turns)].map(|levels| clean(levels, turns));
            for (figure, wanted) in figures.into_iter().zip(wanted) {
                assert!((figure - wanted).abs() < 0.1, "{turns}: {figure} {wanted}");
            }
        }
    }

    #[test]
    fn each_row_is_backwards_from_the_next_ones_first_number() {
        let natural = [0.0, 1.0, 2.0, 3.0, 4.0, 5.0];
        assert_eq!(laid(&natural, 3, 2), [3.0, 2.0, 1.0, 0.0, 5.0, 4.0]);
        let longer = [&natural[..], &[6.0]].concat();
        assert_eq!(laid(&longer, 3, 2), [3.0, 2.0, 1.0, 6.0, 5.0, 4.0]);
    }

    #[test]
    fn a_list_of_another_length_is_left_to_the_opening() {
        for (phases, taps) in [(2, 2), (4, 2), (0, 3), (usize::MAX, 2)] {
            assert_eq!(laid(&[1.0, 2.0, 3.0], phases, taps), [1.0, 2.0, 3.0]);
        }
        assert_eq!(laid(&[], 0, 0), []);
    }
}
