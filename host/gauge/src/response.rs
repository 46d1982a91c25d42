//! How strong a line and its sections let a wave through, computed from the settings; and which waves come back as others. Frequencies are in cycles a sample.

use crate::complex::weighed;
use crate::images::Images;
use crate::line_file::LineFile;
use gauge_line::passband::STAGE_TAPS;
use gauge_line::{CicDecimator, Refusal, hbf_tap_table};
use std::f64::consts::{PI, TAU};

/// A line as filters.
pub struct Response {
    stages: i32,
    r: f64,
    // Of a steady sample, behind the CIC decimator.
    cic_gain: f64,
    // None where the FIR is off.
    taps: Vec<f64>,
    factor: f64,
    // The taps of each half-band stage that is on.
    half_band: Vec<Vec<f64>>,
    images: Option<Images>,
}

/// A wave that comes back as another: how strong, and what it was.
#[derive(Clone, Copy, Debug, PartialEq)]
pub struct Alias {
    /// What it is multiplied by.
    pub level: f64,
    /// Its frequency in the samples.
    pub from: f64,
}

impl Alias {
    const NONE: Alias = Alias {
        level: 0.0,
        from: 0.0,
    };

    fn stronger(self, other: Alias) -> Alias {
        if other.level > self.level {
            other
        } else {
            self
        }
    }
}

impl Response {
    /// Of the line of a settings file.
    pub fn of(file: &LineFile) -> Result<Response, Refusal> {
        let settings = &file.settings;
        let cic = CicDecimator::new(settings.stages, settings.r)?;
        let taps = file.taps.iter().map(|tap| f64::from(*tap) / 32768.0);
        let factor = if file.taps.is_empty() {
            1
        } else {
            settings.factor
        };
        Ok(Response {
            stages: settings.stages as i32,
            r: settings.r as f64,
            cic_gain: cic.gain()? as f64 / 2f64.powi(cic.gain_bits()? as i32),
            taps: taps.collect(),
            factor: factor as f64,
            half_band: half_band(settings.depth),
            images: Images::of(file),
        })
    }

    /// Samples for each value behind the CIC decimator.
    pub fn samples_per_sum(&self) -> f64 {
        self.r
    }

    /// Samples for each value that the half-band cascade has.
    pub fn samples_per_filtered(&self) -> f64 {
        self.r * self.factor
    }

    /// Samples for each value that the resampler has, or for each level where it is off.
    pub fn samples_per_value(&self) -> f64 {
        self.samples_per_filtered() * 2f64.powi(self.half_band.len() as i32)
    }

    /// Samples for each level.
    pub fn samples_per_level(&self) -> f64 {
        self.samples_per_value() * self.images.as_ref().map_or(1.0, |images| images.step)
    }

    /// What the CIC decimator multiplies a wave by.
    pub fn cic(&self, frequency: f64) -> f64 {
        let one = self.r * (PI * frequency).sin();
        let mean = match one.abs() < 1e-12 {
            true => 1.0,
            false => (PI * frequency * self.r).sin() / one,
        };
        self.cic_gain * mean.abs().powi(self.stages)
    }

    /// What the FIR multiplies it by, where it is on.
    pub fn fir(&self, frequency: f64) -> Option<f64> {
        let on = !self.taps.is_empty();
        on.then(|| weighed(&self.taps, frequency * self.r))
    }

    /// What the half-band cascade multiplies it by, where it is on.
    pub fn half_band(&self, frequency: f64) -> Option<f64> {
        let rate = self.samples_per_filtered();
        let stages = self.half_band.iter().enumerate();
        let stages = stages.map(|(k, taps)| stage(taps, frequency * rate * 2f64.powi(k as i32)));
        (!self.half_band.is_empty()).then(|| stages.product::<f64>().abs())
    }

    /// What the resampler multiplies it by, where it is on: the wave itself, without its images.
    pub fn resampler(&self, frequency: f64) -> Option<f64> {
        let cycles = folded(frequency * self.samples_per_value());
        self.images.as_ref().map(|images| images.level(cycles, 0))
    }

    /// What all sections but the resampler multiply it by.
    pub fn front(&self, frequency: f64) -> f64 {
        let filters = [self.fir(frequency), self.half_band(frequency)];
        self.cic(frequency) * filters.into_iter().flatten().product::<f64>()
    }

    /// What the line multiplies it by. Where the wave is too fast for its levels it shows as a slower one.
    pub fn line(&self, frequency: f64) -> f64 {
        self.front(frequency) * self.resampler(frequency).unwrap_or(1.0)
    }

    /// The frequency that a wave has in the levels.
    pub fn shows_at(&self, frequency: f64) -> f64 {
        let cycles = folded(frequency * self.samples_per_value());
        let step = self.images.as_ref().map_or(1.0, |images| images.step);
        folded(cycles * step) / self.samples_per_level()
    }

    /// The strongest image that the resampler adds to a wave, where it is on.
    pub fn strongest_image(&self, frequency: f64) -> Option<f64> {
        let images = self.images.as_ref()?;
        let cycles = folded(frequency * self.samples_per_value());
        let orders = images.orders().filter(|order| *order != 0);
        let levels = orders.map(|order| images.level(cycles, order));
        Some(self.front(frequency) * levels.fold(0.0, f64::max))
    }

    /// The strongest of the other waves that show at a frequency of the levels, which is at most half their rate.
    pub fn alias(&self, frequency: f64) -> Alias {
        let Some(images) = &self.images else {
            return self.alias_of_value(frequency * self.samples_per_value());
        };
        let cycles = frequency * self.samples_per_level();
        let most = *images.orders().end() as f64 + 0.5;
        let turns = (most * images.step + 1.0) as i64;
        let wave = |cycles: f64| self.alias_by(images, cycles / images.step, most);
        let below = (1..=turns).map(|turn| wave(turn as f64 - cycles));
        let above = (1..=turns).map(|turn| wave(turn as f64 + cycles));
        let own = wave(cycles);
        below.chain(above).fold(own, Alias::stronger)
    }

    // The strongest wave of which the resampler makes one of so many cycles a value, the wave that should be it excepted.
    fn alias_by(&self, images: &Images, cycles: f64, most: f64) -> Alias {
        if cycles > most {
            return Alias::NONE;
        }
        let order = cycles.round();
        let own = (cycles - order).abs();
        let wanted = order == 0.0 && 2.0 * cycles * images.step <= 1.0;
        let from = own / self.samples_per_value();
        let front = match wanted {
            true => Alias::NONE,
            false => Alias {
                level: self.front(from),
                from,
            },
        };
        let front = front.stronger(self.alias_of_value(own));
        Alias {
            level: front.level * images.level(cycles - order, order as i64),
            ..front
        }
    }

    // The strongest of the faster waves that have so many cycles a value, at most half a one. Of waves that are the same behind the CIC decimator the slowest is the strongest, so only
    // those below half the rate of its sums are looked at, and the next one of the slow wave itself.
    fn alias_of_value(&self, cycles: f64) -> Alias {
        let rate = self.samples_per_value();
        let a_sum = rate / self.r;
        let turns = 1..=(a_sum / 2.0).ceil() as i64;
        let faster = turns.flat_map(|turn| [turn as f64 - cycles, turn as f64 + cycles]);
        let faster = faster.filter(|cycles| 2.0 * cycles <= a_sum);
        let waves = faster.chain([a_sum - cycles]).map(|cycles| cycles / rate);
        let waves = waves.filter(|from| *from <= 0.5).map(|from| Alias {
            level: self.front(from),
            from,
        });
        waves.fold(Alias::NONE, Alias::stronger)
    }

    /// How far back its sections look together, in samples; its response has so many peaks a cycle at most.
    pub fn reach(&self) -> f64 {
        let fir = self.taps.len() as f64 * self.r;
        let mut rate = self.samples_per_filtered();
        let mut half_band = 0.0;
        for taps in &self.half_band {
            half_band += 4.0 * taps.len() as f64 * rate;
            rate *= 2.0;
        }
        let resampler = self.images.as_ref().map_or(0, Images::taps);
        self.r * f64::from(self.stages) + fir + half_band + resampler as f64 * rate
    }
}

// The taps of the stages of so deep a cascade, in their order.
fn half_band(depth: usize) -> Vec<Vec<f64>> {
    let table = hbf_tap_table().map(f64::from);
    let mut end = table.len();
    let mut stages = Vec::new();
    for taps in STAGE_TAPS.into_iter().take(depth) {
        stages.push(table[end - taps..end].to_vec());
        end -= taps;
    }
    stages
}

// One stage at a frequency in parts of its own input rate: 0.5 in the middle, tap t at the odd distance 2M - 1 - 2t on both sides.
fn stage(taps: &[f64], frequency: f64) -> f64 {
    let sides = taps.iter().enumerate().map(|(t, tap)| {
        let distance = 2 * taps.len() - 1 - 2 * t;
        tap * (TAU * frequency * distance as f64).cos()
    });
    0.5 + sides.sum::<f64>()
}

// A frequency as it shows at a rate of 1: 0 to 0.5.
fn folded(frequency: f64) -> f64 {
    (frequency - frequency.round()).abs()
}

/// A factor in dB, from -300 up.
pub fn decibels(factor: f64) -> f64 {
    20.0 * factor.max(1e-15).log10()
}
