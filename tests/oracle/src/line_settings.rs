//! What a line is opened with: every part on and off, within 01's limits, at their ends and outside.

use crate::cic_settings;
use crate::field::fields;
use crate::fir_decimator::MOST_TAPS;
use crate::float_samples;
use crate::lent::{Lent, Slice};
use crate::q15_samples;
use crate::refusals;
use crate::rng::Rng;
use crate::settings;
use crate::sizes::RESAMPLERS;

/// 01's limits of the line's step, and what lies beside them and between.
const STEPS: [f32; 10] = [
    1.0 / 64.0,
    1.0 / 64.0,
    64.0,
    64.0,
    0.5,
    0.5,
    1.0,
    0.015_625_002,
    63.999_996,
    3.0,
];

pub const BAD_STEPS: [f32; 9] = [
    0.0,
    -0.0,
    -1.0,
    0.015_624_999,
    64.000_01,
    1e-45,
    f32::INFINITY,
    f32::NEG_INFINITY,
    f32::NAN,
];

fields! {
    /// What `Line::open` is lent.
    pub struct Settings {
        stages: u64,
        r: u64,
        factor: u64,
        depth: u64,
        phases: u64,
        taps: u64,
        straight: u64,
        step: f32,
        thinning: u64,
        fir: Slice<i16>,
        prototype: Slice<f32>,
    }
}

impl Settings {
    pub fn refusal(&self) -> u32 {
        refusals::first([
            refusals::line_thinning(self.thinning, self.stages, self.r),
            refusals::line_fir(self.fir.len() as u64, self.factor),
            refusals::depth(self.depth),
            refusals::line_resampler(self.phases, self.taps, self.prototype.len(), self.step),
        ])
    }

    /// About how many samples make an output.
    pub fn samples_for_output(&self) -> f32 {
        let thinned = match self.fir.len() {
            0 => 1,
            _ => self.factor,
        };
        let slowed = match self.phases {
            0 => 1.0,
            _ => self.step,
        };
        ((self.r * thinned) << self.depth) as f32 * slowed
    }
}

/// Within the limits, as a line that is fed has them: small factors often, so that few samples make an output.
pub fn cic(rng: &mut Rng) -> (u64, u64) {
    loop {
        let stages = cic_settings::stages(rng);
        let r = match rng.below(8) {
            0 => cic_settings::gain_edge(rng, stages),
            1 => cic_settings::factor(rng),
            2..=4 => rng.within(1, 8),
            _ => rng.within(1, 3),
        };
        if refusals::line_cic(stages, r) == 0 {
            return (stages, r);
        }
    }
}

/// The integrators, or, where the factor lets them, as often the neighbours.
pub fn thinning(rng: &mut Rng, r: u64) -> u64 {
    match r.is_power_of_two() {
        true => rng.below(2) * rng.pick(&[1, 1, 2, 1 << 32, u64::MAX]),
        false => 0,
    }
}

/// The taps and the factor, which is not looked at where there are no taps.
fn fir(rng: &mut Rng) -> (Lent, u64) {
    let length = match rng.below(8) {
        0..=2 => 0,
        3 => rng.pick(&[MOST_TAPS, 64, 65]),
        4 => rng.within(1, MOST_TAPS),
        _ => rng.within(1, 6),
    };
    let factor = match length {
        0 if rng.one_in(2) => settings::bad_factor(rng),
        _ => settings::factor_around(rng, length),
    };
    (q15_samples::list(rng, length), factor)
}

/// 1/64 to 64.
pub fn step(rng: &mut Rng) -> f32 {
    let exponent = rng.within(121, 132) as u32;
    let any = f32::from_bits(exponent << 23 | rng.next() as u32 >> 9);
    match rng.below(2) {
        0 => rng.pick(&STEPS),
        _ => any,
    }
}

/// A line with a CIC that hands samples on and so many taps, and nothing behind them.
pub fn fir_alone(taps: u64, factor: u64) -> Settings {
    Settings {
        stages: 1,
        r: 1,
        factor,
        depth: 0,
        phases: 0,
        taps: 0,
        straight: 0,
        step: 0.0,
        thinning: 0,
        fir: Lent::pattern(taps, 1 << 14, 0).into(),
        prototype: Lent::pattern(0, 0, 0).into(),
    }
}

/// An opening that is not refused. What belongs to a resampler that is off may be anything.
pub fn good(rng: &mut Rng) -> Settings {
    let (stages, r) = cic(rng);
    let thinning = thinning(rng, r);
    let (fir, factor) = fir(rng);
    let depth = rng.below(2) * rng.within(1, 5);
    let (mut phases, mut taps) = rng.pick(&RESAMPLERS);
    let mut step = step(rng);
    let mut length = phases * taps;
    if rng.one_in(3) {
        phases = 0;
        taps = rng.pick(&[0, taps, 17, u64::MAX]);
        step = rng.pick(&[step, 0.0, f32::NAN]);
        length = rng.pick(&[0, length, 1025]);
    }
    Settings {
        stages,
        r,
        factor,
        depth,
        phases,
        taps,
        straight: rng.below(2) * rng.pick(&[1, 1, 2, 1 << 32, u64::MAX]),
        step,
        thinning,
        fir: fir.into(),
        prototype: float_samples::list(rng, length).into(),
    }
}

/// The same with any P and T.
pub fn any_good(rng: &mut Rng) -> Settings {
    let mut settings = good(rng);
    if settings.phases != 0 {
        (settings.phases, settings.taps) = settings::phases_and_taps(rng);
        let length = settings.phases * settings.taps;
        settings.prototype = float_samples::list(rng, length).into();
    }
    settings
}

/// The faults of the resampler alone.
fn spoil_resampler(rng: &mut Rng, opening: &mut Settings, faults: u64) {
    let length = opening.prototype.len();
    if faults & 1 != 0 {
        opening.phases = rng.pick(&[1, 65, 1 << 32, (1 << 32) + 2, u64::MAX]);
    }
    if faults & 2 != 0 {
        opening.taps = rng.pick(&[0, 17, 1 << 32, (1 << 32) + 1, u64::MAX]);
    }
    if faults & 4 != 0 {
        let lengths = [0, length + 1, length.saturating_sub(1), 1025];
        opening.prototype = opening.prototype.resized(rng.pick(&lengths));
    }
    if faults & 8 != 0 {
        opening.step = rng.pick(&BAD_STEPS);
    }
}

/// One fault or several.
pub fn spoilt(rng: &mut Rng) -> Settings {
    let mut opening = good(rng);
    let faults = match rng.one_in(4) {
        true => rng.below(1024),
        false => 1 << rng.below(10),
    };
    if faults & 512 != 0 {
        opening.r = rng.pick(&[3, 5, 6, 12, 48, 4095]);
        opening.thinning = rng.pick(&[1, 2, 1 << 32]);
    }
    if faults & 16 != 0 {
        opening.stages = cic_settings::bad_stages(rng);
    }
    if faults & 32 != 0 {
        opening.r = settings::bad_factor(rng);
    }
    if faults & 64 != 0 {
        opening.stages = rng.within(3, 8);
        opening.r = cic_settings::gain_edge(rng, opening.stages);
    }
    if faults & 128 != 0 {
        opening.depth = settings::bad_depth(rng);
    }
    if faults & 256 != 0 {
        let length = rng.pick(&[1, 64, 65, MOST_TAPS, MOST_TAPS + 1, MOST_TAPS + 2, 65_536]);
        opening.fir = q15_samples::list(rng, length).into();
        opening.factor = rng.pick(&[0, 1, 4096, 4097, (1 << 32) + 1, opening.factor]);
    }
    spoil_resampler(rng, &mut opening, faults);
    opening
}
