//! The sections of a line as filters: how many values each hands on, how late, and at which gain.

use crate::line_file::LineFile;
use gauge_line::passband::STAGE_TAPS;
use gauge_line::{CicDecimator, Phase, Refusal, Thinning, hbf_tap_table};

/// The name of the section that a depth turns on.
pub const HALF_BAND: &str = "half-band cascade";

/// One section as a filter. Times are in samples of the recording.
pub struct Section {
    /// What it is.
    pub name: &'static str,
    /// Samples for each value that it hands on.
    pub samples_per_value: f64,
    /// How late it shows a slow change.
    pub delay: f64,
    /// By how much its memory reaches back behind that of the section before.
    pub reach: f64,
    /// What a steady input is multiplied by.
    pub gain: f64,
}

/// The sections of a line that are on, in their order. There is always one, the first.
pub fn sections(file: &LineFile) -> Result<Vec<Section>, Refusal> {
    let mut all = vec![cic(file)?];
    let mut add = |section: fn(&LineFile, f64) -> Section| {
        let rate = all[all.len() - 1].samples_per_value;
        all.push(section(file, rate));
    };
    if !file.taps.is_empty() {
        add(fir);
    }
    if file.settings.depth > 0 {
        add(half_band);
    }
    if file.settings.phases > 0 {
        add(resampler);
    }
    Ok(all)
}

/// All sections as one filter.
pub fn whole(sections: &[Section]) -> Section {
    Section {
        name: "whole line",
        samples_per_value: sections[sections.len() - 1].samples_per_value,
        delay: sections.iter().map(|section| section.delay).sum(),
        reach: sections.iter().map(|section| section.reach).sum(),
        gain: sections.iter().map(|section| section.gain).product(),
    }
}

/// The samples up to and with the one that makes the first level.
pub fn first_level(file: &LineFile) -> usize {
    let halved = 1 << file.settings.depth;
    let values = match file.taps.len() {
        0 => halved,
        taps => (halved - 1) * file.settings.factor + taps,
    };
    values * file.settings.r
}

// N moving sums of r samples, each (r - 1) / 2 late, whatever makes them.
fn cic(file: &LineFile) -> Result<Section, Refusal> {
    let (stages, r) = (file.settings.stages, file.settings.r);
    let cic = CicDecimator::new(stages, r)?;
    let reach = (stages * (r - 1)) as f64;
    Ok(Section {
        name: match file.settings.thinning {
            Thinning::Integrators => "CIC decimator",
            Thinning::Neighbours => "sums of neighbours",
        },
        samples_per_value: r as f64,
        delay: reach / 2.0,
        reach,
        gain: cic.gain()? as f64 / 2f64.powi(cic.gain_bits()? as i32),
    })
}

// Tap t weighs the value that is T - 1 - t old.
fn fir(file: &LineFile, rate: f64) -> Section {
    let oldest = file.taps.len() - 1;
    let weights = file.taps.iter().enumerate();
    let weights = weights.map(|(t, tap)| ((oldest - t) as f64, f64::from(*tap) / 32768.0));
    let (gain, delay) = gain_and_delay(weights);
    Section {
        name: "FIR",
        samples_per_value: rate * file.settings.factor as f64,
        delay: rate * delay,
        reach: rate * oldest as f64,
        gain,
    }
}

// A stage of M taps has its middle 2M values back and its oldest 4M - 1.
fn half_band(file: &LineFile, rate: f64) -> Section {
    let table = hbf_tap_table().map(f64::from);
    let mut rest = &table[..];
    let (mut rate, mut delay, mut reach, mut gain) = (rate, 0.0, 0.0, 1.0);
    for taps in STAGE_TAPS.into_iter().take(file.settings.depth) {
        let (before, own) = rest.split_at(rest.len() - taps);
        rest = before;
        delay += rate * 2.0 * taps as f64;
        reach += rate * (4 * taps - 1) as f64;
        gain *= 0.5 + own.iter().sum::<f64>();
        rate *= 2.0;
    }
    Section {
        name: HALF_BAND,
        samples_per_value: rate,
        delay,
        reach,
        gain,
    }
}

// Phase p is due 1 - p / P behind the newest value, so tap t of it weighs a value t + 1 - p / P old. Straight phase reads places 1 to P of a row, of which the last is the next row's first.
fn resampler(file: &LineFile, rate: f64) -> Section {
    let phases = file.settings.phases;
    let weights = file.prototype.iter().enumerate().map(|(at, tap)| {
        let (t, p) = match file.settings.phase {
            Phase::Wrapped => (at / phases, at % phases),
            Phase::Straight if at == 0 => return (0.0, 0.0),
            Phase::Straight => ((at - 1) / phases, (at - 1) % phases + 1),
        };
        let age = t as f64 + 1.0 - p as f64 / phases as f64;
        (age, f64::from(*tap) / phases as f64)
    });
    let (gain, delay) = gain_and_delay(weights);
    Section {
        name: "resampler",
        samples_per_value: rate * f64::from(file.settings.step),
        delay: rate * delay,
        reach: rate * (file.settings.phase_taps - 1) as f64,
        gain,
    }
}

// The sum of weights, and the age at their centre.
fn gain_and_delay(weights: impl Iterator<Item = (f64, f64)>) -> (f64, f64) {
    let sums = |(gain, moment), (age, weight)| (gain + weight, moment + age * weight);
    let (gain, moment) = weights.fold((0.0, 0.0), sums);
    (gain, moment / gain)
}

#[cfg(test)]
mod tests {
    use super::*;
    use crate::convert::levels_of;

    const FULL: &str = "stages = 3\nr = 4\ntaps = 8192 8192 8192 8192\nfactor = 2\ndepth = 2\nphases = 2\nphase_taps = 2\nprototype = 1 0.5 0 0.5\nstep = 1.5\n";
    const PLAIN: &str = "stages = 2\nr = 5\n";
    const UNEVEN: &str = "stages = 1\nr = 2\ntaps = 1000 2000 30000\nfactor = 5\ndepth = 3\n";

    // Each level with the place of the sample that it came with.
    fn levels(file: &LineFile, samples: &[i32]) -> Vec<(usize, f64)> {
        let mut line = file.open().unwrap();
        let mut all = Vec::new();
        for (at, sample) in samples.iter().enumerate() {
            let levels = levels_of(&mut line, &[*sample]).unwrap();
            all.extend(levels.into_iter().map(|level| (at, f64::from(level))));
        }
        all
    }

    // The floors of sums and products take at most a few 32768ths.
    fn close(level: f64, wanted: f64) {
        assert!((level - wanted).abs() < 6.0 / 32768.0, "{level} {wanted}");
    }

    #[test]
    fn a_steady_sample_settles_at_the_gain() {
        for text in [FULL, PLAIN, UNEVEN] {
            let file = LineFile::parse("f", text).unwrap();
            let whole = whole(&sections(&file).unwrap());
            let levels = levels(&file, &[16384; 8000]);
            assert_eq!(levels[0].0 + 1, first_level(&file));
            let settled = levels.iter().filter(|(at, _)| *at as f64 >= whole.reach);
            assert!(settled.clone().count() > 3);
            settled.for_each(|(_, level)| close(*level, 0.5 * whole.gain));
        }
    }

    #[test]
    fn a_slow_rise_shows_after_the_delay() {
        for text in [FULL, PLAIN, UNEVEN] {
            let file = LineFile::parse("f", text).unwrap();
            let whole = whole(&sections(&file).unwrap());
            let every = whole.samples_per_value;
            let rise: Vec<i32> = (0..8000).map(|at| 4 * at).collect();
            let levels = levels(&file, &rise);
            for (k, (at, level)) in levels.iter().enumerate().skip(levels.len() / 2) {
                let time = levels[0].0 as f64 + k as f64 * every;
                assert!((time - *at as f64).abs() < every.max(64.0));
                close(*level, 4.0 * (time - whole.delay) / 32768.0 * whole.gain);
            }
        }
    }
}
