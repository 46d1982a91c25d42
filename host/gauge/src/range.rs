//! Which samples a line can take: where its sums are exact, where a steady sample comes out as it should, and at which level.

use crate::convert::levels_of;
use crate::fault::Fault;
use crate::line_file::LineFile;
use gauge_line::{CicDecimator, Line, Refusal, Settings, limits};

// From here on every half-band stage is filled, in values that the cascade hands on: the whole of depth 5 reaches 1855 of its own values back, 58 for one handed on.
const HALF_BAND_VALUES: usize = 64;
// Levels of a filled line that are looked at, so that each phase of a simple step is read.
const LEVELS: usize = 1024;

/// Samples from the least to the greatest.
pub type Range = (i64, i64);

/// The samples of which every sum is exact, whatever their order, as the proved decimator tells them. None where the line's opening refuses the CIC decimator.
pub fn exact(stages: usize, r: usize) -> Option<Range> {
    let cic = CicDecimator::new(stages, r).ok()?;
    let range = cic.exact_range().ok()?;
    Some((i64::from(*range.start()), i64::from(*range.end())))
}

/// The steady samples whose sum, r^stages times the sample, stays within 32 bits. Any other comes round modulo 2^32.
pub fn steady(stages: usize, r: usize) -> Option<Range> {
    let (gain, _) = gain(stages, r)?;
    Some((i64::from(i32::MIN) / gain, i64::from(i32::MAX) / gain))
}

/// The steady samples of which no value is cut to 16 bits, of those whose sum stays within 32 bits: neither the scaled sum nor the sum of a FIR with these taps.
pub fn uncut(stages: usize, r: usize, taps: &[i16]) -> Option<Range> {
    let (gain, bits) = gain(stages, r)?;
    let (least, greatest) = steady(stages, r)?;
    let (low, high) = uncut_values(taps);
    let scaled = |value: i64| value << bits;
    Some((
        least.max(scaled(low) / gain),
        greatest.min((scaled(high + 1) - 1) / gain),
    ))
}

// The steady values of 16 bits, on both sides of 0, of which a FIR's sum is not cut; without taps all of them.
fn uncut_values(taps: &[i16]) -> Range {
    let floored = |value: i64, tap: &i16| (value * i64::from(*tap)) >> 15;
    let sum = |value: i64| taps.iter().map(|tap| floored(value, tap)).sum::<i64>();
    let inside = |value: &i64| i16::try_from(sum(*value)).is_ok();
    let low = (-32768..=0).rev().take_while(inside).last();
    let high = (0..=32767).take_while(inside).last();
    (low.unwrap_or(0), high.unwrap_or(0))
}

// Gain and gain bits of a CIC decimator that a line can have.
fn gain(stages: usize, r: usize) -> Option<(i64, u32)> {
    let cic = CicDecimator::new(stages, r).ok()?;
    let bits = cic.gain_bits().ok()?;
    let gain = i64::try_from(cic.gain().ok()?).ok()?;
    (bits <= limits::MOST_GAIN_BITS).then_some((gain, bits))
}

/// The least and the greatest level of a line that a steady sample has filled, as the proved parts give them.
pub fn steady_levels(file: &LineFile, sample: i32) -> Result<(f32, f32), Fault> {
    let sum = steady_sum(file.settings.stages, file.settings.r, sample);
    let sum = sum.map_err(|refusal| Fault::file("the line", refusal))?;
    filled_levels(file, sum)
}

/// The ends of the scale: the least and the greatest level of a line that is filled with values cut to 16 bits.
pub fn scale(file: &LineFile) -> Result<(f32, f32), Fault> {
    let below = filled_levels(file, i32::from(i16::MIN))?;
    let above = filled_levels(file, i32::from(i16::MAX))?;
    Ok((below.0.min(above.0), below.1.max(above.1)))
}

// The least and the greatest level of what stands behind the CIC decimator, filled with one scaled sum: it is run as a line whose own decimator hands its samples on. A FIR that steady values fill gives
// the same at every factor, so a factor of 1 saves the wait.
fn filled_levels(file: &LineFile, sum: i32) -> Result<(f32, f32), Fault> {
    let settings = Settings {
        stages: 1,
        r: 1,
        factor: 1,
        ..file.settings
    };
    let line = Line::open(settings, &file.taps, &file.prototype);
    let mut line = line.map_err(|refusal| Fault::file("the line", refusal))?;
    let (phase_taps, step) = match settings.phases {
        0 => (0, 1.0),
        _ => (settings.phase_taps, settings.step),
    };
    let filled = file.taps.len() + ((HALF_BAND_VALUES + phase_taps) << settings.depth);
    levels_of(&mut line, &vec![sum; filled])?;
    let looked_at = (LEVELS * step.ceil() as usize) << settings.depth;
    let levels = levels_of(&mut line, &vec![sum; looked_at])?;
    let ends = (f32::INFINITY, f32::NEG_INFINITY);
    let wider = |(low, high): (f32, f32), level: f32| (low.min(level), high.max(level));
    Ok(levels.into_iter().fold(ends, wider))
}

// The scaled sum of a CIC decimator that a steady sample has filled: N + 1 times r samples reach past its N × (r − 1) + 1.
fn steady_sum(stages: usize, r: usize, sample: i32) -> Result<i32, Refusal> {
    let mut cic = CicDecimator::new(stages, r)?;
    let mut last = 0;
    for _ in 0..(stages + 1) * r {
        last = cic.process_sample_scaled(sample)?.unwrap_or(last);
    }
    Ok(last)
}

#[cfg(test)]
mod tests {
    use super::*;

    fn settled(stages: usize, r: usize, sample: i64) -> i64 {
        i64::from(steady_sum(stages, r, sample as i32).unwrap())
    }

    #[test]
    fn the_ranges_are_those_of_the_gain() {
        assert_eq!(exact(3, 64), Some((-8192, 8191)));
        assert_eq!(
            exact(1, 1),
            Some((i64::from(i32::MIN), i64::from(i32::MAX)))
        );
        assert_eq!(steady(2, 5), Some((-85_899_345, 85_899_345)));
        assert_eq!(uncut(2, 5, &[]), Some((-41_943, 41_943)));
        assert_eq!(uncut(3, 64, &[]), Some((-8192, 8191)));
        assert_eq!(exact(8, 14), Some((-1, 0)));
        for refused in [(0, 2), (9, 2), (1, 0), (1, 4097), (8, 15)] {
            assert_eq!(exact(refused.0, refused.1), None);
        }
    }

    // One sample further the sum comes round, or the value is cut.
    #[test]
    fn each_steady_range_ends_where_the_decimator_says() {
        for (stages, r) in [
            (1, 2),
            (2, 5),
            (3, 64),
            (5, 7),
            (8, 14),
            (1, 4096),
            (2, 4096),
        ] {
            let (gain, bits) = gain(stages, r).unwrap();
            let exact = |sample: i64| (sample * gain).div_euclid(1 << bits);
            let (least, greatest) = steady(stages, r).unwrap();
            for inside in [least, greatest] {
                assert_eq!(settled(stages, r, inside), exact(inside));
            }
            for outside in [least - 1, greatest + 1] {
                assert_ne!(settled(stages, r, outside), exact(outside));
            }
            let (least, greatest) = uncut(stages, r, &[]).unwrap();
            let full = -32768..=32767;
            for (inside, outside) in [(least, least - 1), (greatest, greatest + 1)] {
                assert!(full.contains(&exact(inside)));
                let comes_round = settled(stages, r, outside) != exact(outside);
                assert!(comes_round || !full.contains(&exact(outside)));
            }
        }
    }

    // Whether a line that the sample has filled goes on cutting.
    fn is_cut(file: &LineFile, sample: i64) -> bool {
        let mut line = Line::open(file.settings, &file.taps, &[]).unwrap();
        let filled = (file.settings.stages + 1 + file.taps.len()) * file.settings.r;
        let mut cuts = || {
            levels_of(&mut line, &vec![sample as i32; filled]).unwrap();
            line.cuts()
        };
        let before = cuts();
        cuts() > before
    }

    #[test]
    fn a_steady_sample_is_cut_just_past_its_range() {
        for text in [
            "stages=1\nr=1\n",
            "stages=2\nr=5\n",
            "stages=2\nr=5\nfactor=1\ntaps=32767 32767\n",
            "stages=1\nr=3\nfactor=2\ntaps=-32768 -20000 7\n",
            "stages=1\nr=1\nfactor=1\ntaps=-32768\n",
        ] {
            let file = LineFile::parse("f", text).unwrap();
            let range = uncut(file.settings.stages, file.settings.r, &file.taps);
            let (least, greatest) = range.unwrap();
            for (inside, outside) in [(least, least - 1), (greatest, greatest + 1)] {
                assert!(!is_cut(&file, inside), "{text}{inside}");
                assert!(is_cut(&file, outside), "{text}{outside}");
            }
        }
    }

    // Each of four products of 32767 and 8192 is floored by itself.
    #[test]
    fn the_scale_is_what_cut_values_come_to() {
        let scale = |text: &str| super::scale(&LineFile::parse("f", text).unwrap());
        assert_eq!(scale("stages=1\nr=1\n"), Ok((-1.0, 32767.0 / 32768.0)));
        let fir = "stages=1\nr=1\nfactor=9\ntaps=8192 8192 8192 8192\n";
        assert_eq!(scale(fir), Ok((-1.0, 32764.0 / 32768.0)));
        let inverting = "stages=1\nr=1\nfactor=1\ntaps=-16384\n";
        assert_eq!(scale(inverting), Ok((-0.5, 0.5)));
    }
}
