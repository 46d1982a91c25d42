//! How even the levels of a ramp are: a ramp goes through the resampler alone, and every rise from level to level is compared with an even one.

use gauge_line::{Phase, PolyphaseResampF32, Refusal, Settings};

// So many levels are looked at: enough for a step that is no simple fraction to read near every phase.
const LEVELS: usize = 20_000;
// More outputs than one value makes due at the least step, 1/64.
const MOST_DUE: usize = 128;

/// How far rises are from even ones, in parts of an even one.
#[derive(Clone, Copy, Debug, PartialEq)]
pub struct Unevenness {
    /// The worst of them.
    pub worst: f64,
    /// All of them on average.
    pub mean: f64,
}

/// How uneven the levels of a ramp are that rises by 1 a value, through the resampler of these settings; an even rise is step × gain. None where the gain is 0 or levels are past f32.
pub fn unevenness(settings: &Settings, prototype: &[f32]) -> Result<Option<Unevenness>, Refusal> {
    let (phases, taps, step) = (settings.phases, settings.phase_taps, settings.step);
    let open = match settings.phase {
        Phase::Wrapped => PolyphaseResampF32::from_taps,
        Phase::Straight => PolyphaseResampF32::from_taps_straight,
    };
    let resampler = open(phases, taps, prototype, step)?;
    let sum: f64 = prototype.iter().map(|tap| f64::from(*tap)).sum();
    let even = f64::from(step) * sum / phases as f64;
    let levels = ramp_levels(resampler, taps, step)?;
    let pairs = levels.windows(2).filter(|pair| pair[0].0 == pair[1].0);
    let off = pairs.map(|pair| ((pair[1].1 - pair[0].1) / even - 1.0).abs());
    let off: Vec<f64> = off.collect();
    let mean = off.iter().sum::<f64>() / off.len() as f64;
    let worst = off.into_iter().fold(0.0, f64::max);
    // A gain of 0 or a level past f32 leaves an average that is no number.
    Ok(mean.is_finite().then_some(Unevenness { worst, mean }))
}

// Levels with the number of the ramp that they are of. One ramp after another keeps the values small, so that rounding does not show; levels that still weigh the ramp before are left out.
fn ramp_levels(
    mut resampler: PolyphaseResampF32,
    taps: usize,
    step: f32,
) -> Result<Vec<(usize, f64)>, Refusal> {
    let length = 8 * step.ceil() as usize + 2 * taps;
    let mut out = [0.0; MOST_DUE];
    let mut levels = Vec::new();
    let mut at = 0;
    while levels.len() < LEVELS {
        let (ramp, along) = (at / length, at % length);
        let value = along as f32 - (length / 2) as f32;
        let written = resampler.process_block(&[value], &mut out)?.written;
        if along + 1 >= taps {
            levels.extend(out[..written].iter().map(|level| (ramp, f64::from(*level))));
        }
        at += 1;
    }
    Ok(levels)
}

#[cfg(test)]
mod tests {
    use super::*;
    use crate::lay::laid;

    // Between two values the level is drawn straight: h rises from 0 to 1 over P places and falls again.
    fn straight(phases: usize) -> Vec<f32> {
        let up = (0..phases).map(|p| p as f32 / phases as f32);
        let down = (0..phases).map(|p| 1.0 - p as f32 / phases as f32);
        up.chain(down).collect()
    }

    fn settings(phases: usize, prototype: &[f32], step: f32) -> Settings {
        Settings {
            phases,
            phase_taps: prototype.len() / phases,
            step,
            ..Settings::default()
        }
    }

    fn uneven(phases: usize, prototype: &[f32], step: f32) -> Unevenness {
        let uneven = unevenness(&settings(phases, prototype, step), prototype);
        uneven.unwrap().unwrap()
    }

    fn worst(phases: usize, prototype: &[f32], step: f32) -> f64 {
        uneven(phases, prototype, step).worst
    }

    fn worst_in_straight_phase(phases: usize, prototype: &[f32], step: f32) -> f64 {
        let settings = Settings {
            phase: Phase::Straight,
            ..settings(phases, prototype, step)
        };
        unevenness(&settings, prototype).unwrap().unwrap().worst
    }

    // docs/float.md has it: whole steps are even in natural order. Laid for wrapped phase, the taps of this prototype are past its end, and every level is 0.
    #[test]
    fn straight_phase_is_even_at_whole_steps_in_natural_order() {
        for phases in [2, 16, 64] {
            let natural = straight(phases);
            for step in [1.0, 2.0, 64.0] {
                let off = worst_in_straight_phase(phases, &natural, step);
                assert!(off < 1e-6, "{phases} {step}: {off}");
                let laid = laid(&natural, phases, 2);
                assert_eq!(worst_in_straight_phase(phases, &laid, step), 1.0);
            }
            assert!(worst_in_straight_phase(phases, &natural, 0.9375) > 0.9);
        }
    }

    // Rises of 93.75, 106.25 and 6.25 in hundredths of a value, where 93.75 is even.
    #[test]
    fn two_phases_are_not_drawn_between_neighbours() {
        let off = worst(2, &[1.0, 0.5, 0.0, 0.5], 0.9375);
        assert!((off - 87.5 / 93.75).abs() < 1e-6, "{off}");
    }

    #[test]
    fn a_step_of_whole_phases_is_even_where_h_is_straight() {
        for phases in [16, 32, 64] {
            let laid = laid(&straight(phases), phases, 2);
            for step in [0.0625, 0.5, 0.9375, 1.0, 7.0625, 64.0] {
                assert!(worst(phases, &laid, step) < 1e-6, "{phases} {step}");
            }
            assert!(worst(phases, &straight(phases), 0.9375) > 1.0);
        }
    }

    // Between the last phase and P the first is read, whose taps belong a value later. That is seldom; in natural order every level is off.
    #[test]
    fn a_step_that_reads_between_phases_is_uneven() {
        let right = uneven(16, &laid(&straight(16), 16, 2), 0.93);
        assert!(right.worst > 0.9 && right.mean < 0.1, "{right:?}");
        let wrong = uneven(16, &straight(16), 0.93);
        assert!(wrong.worst > 0.9 && wrong.mean > 0.2, "{wrong:?}");
    }

    #[test]
    fn no_gain_has_no_even_rise() {
        for (phases, prototype, said) in [
            (2, &[1.0, -1.0][..], Ok(None)),
            (2, &[3e38, 3e38], Ok(None)),
            (1, &[1.0], Err(Refusal::Phases)),
        ] {
            let settings = settings(phases, prototype, 1.0);
            assert_eq!(unevenness(&settings, prototype), said);
        }
    }
}
