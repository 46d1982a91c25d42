//! Which sections could make a wish true: plans, the simplest first.

use crate::line_file::LineFile;
use crate::response::{Response, decibels};
use gauge_line::limits::{
    MOST_DEPTH, MOST_FACTOR, MOST_PHASE_TAPS, MOST_PHASES, MOST_STAGES, MOST_STEP, MOST_TAPS,
};
use gauge_line::{CicDecimator, Settings};
use std::path::Path;

/// Steps that are whole parts of a value, so many, are read by phases alone.
pub const PARTS: u64 = MOST_PHASES as u64;
// Taps that make good what the CIC decimator takes from a passband, where nothing else is asked of them.
const FEW_TAPS: f64 = 7.0;
// Places of a band that are looked at.
const PLACES: usize = 400;
// What a section holds off more than is wished, in dB.
const MARGIN: f64 = 1.0;

/// What a line is wished to do. Frequencies are in cycles a sample.
#[derive(Clone, Copy, Debug)]
pub struct Wish {
    /// Samples for each level, in 64ths.
    pub every: u64,
    /// Up to here waves pass.
    pub pass: f64,
    /// By how many dB they may be off.
    pub ripple: f64,
    /// From here on they are held off.
    pub stop: f64,
    /// By so many dB.
    pub reject: f64,
    /// Bits of a sample.
    pub bits: u32,
}

/// The section that parts passband and stopband.
#[derive(Clone, Copy, Debug, PartialEq, Eq)]
pub enum Edge {
    /// The FIR.
    Fir,
    /// The half-band cascade.
    HalfBand,
    /// The resampler.
    Resampler,
}

/// Sections, without their numbers.
#[derive(Clone, Copy, Debug, PartialEq)]
pub struct Plan {
    /// CIC stages.
    pub stages: usize,
    /// CIC factor.
    pub r: usize,
    /// FIR factor.
    pub factor: usize,
    /// Half-band stages.
    pub depth: usize,
    /// Values for each level, in 64ths; 64 is no resampler.
    pub step: u64,
    /// What parts the bands.
    pub edge: Edge,
    /// The FIR's taps, roughly.
    pub taps: f64,
}

impl Plan {
    /// Samples for each value that the resampler has.
    pub fn samples_per_value(&self) -> f64 {
        (self.r * self.factor) as f64 * f64::from(1 << self.depth)
    }

    /// Whether it has a resampler.
    pub fn resamples(&self) -> bool {
        self.step != PARTS
    }

    // Sections count more than taps.
    fn cost(&self) -> f64 {
        let sections = usize::from(self.depth > 0) + usize::from(self.resamples());
        1000.0 * sections as f64 + self.taps
    }
}

/// The plans that may do, the simplest first.
pub fn plans(wish: &Wish) -> Vec<Plan> {
    let most_step = PARTS * MOST_STEP as u64;
    let steps = (1..=most_step).filter(|step| wish.every % *step == 0);
    let mut all: Vec<Plan> = steps.flat_map(|step| with_step(wish, step)).collect();
    all.sort_by(|one, other| one.cost().total_cmp(&other.cost()));
    all
}

// Those of one step: which section parts the bands, at which depth.
fn with_step(wish: &Wish, step: u64) -> Vec<Plan> {
    let values = (wish.every / step) as usize;
    let edges = match step == PARTS {
        true => [Edge::Fir, Edge::HalfBand],
        false => [Edge::Fir, Edge::Resampler],
    };
    let depths = |edge: Edge| match edge {
        Edge::Fir => 0..=0,
        Edge::HalfBand => 1..=MOST_DEPTH,
        Edge::Resampler => 0..=MOST_DEPTH,
    };
    let mut all = Vec::new();
    for edge in edges {
        for depth in depths(edge).filter(|depth| values % (1 << depth) == 0) {
            all.extend(with_depth(wish, step, edge, depth, values >> depth));
        }
    }
    all
}

// Those that divide so many samples among CIC decimator and FIR.
fn with_depth(wish: &Wish, step: u64, edge: Edge, depth: usize, filtered: usize) -> Vec<Plan> {
    let value = (filtered << depth) as f64;
    let can_part = match edge {
        Edge::Fir => step == PARTS || prototype_taps(wish, edge, value) <= MOST_PHASE_TAPS,
        Edge::HalfBand => holds_off(wish, depth, filtered),
        Edge::Resampler => {
            let aliases = depth == 0 || keeps_aliases(wish, depth, filtered);
            aliases && prototype_taps(wish, edge, value) <= MOST_PHASE_TAPS
        }
    };
    if !can_part {
        return Vec::new();
    }
    let factors = (1..=filtered.min(MOST_FACTOR)).filter(|r| filtered % r == 0);
    let factors = factors.filter(|r| filtered / r <= MOST_FACTOR);
    let plan = |r: usize| {
        let (stages, factor) = (stages_for(wish, r)?, filtered / r);
        let taps = taps_for(wish, edge, r, factor)?;
        Some(Plan {
            stages,
            r,
            factor,
            depth,
            step,
            edge,
            taps,
        })
    };
    factors.filter_map(plan).collect()
}

/// The band, in cycles a value, over which a resampler goes from passing to holding off: up to the stopband, or up to the first image of what the FIR lets through.
pub fn transition(wish: &Wish, edge: Edge, samples_per_value: f64) -> (f64, f64) {
    let (pass, stop) = (wish.pass * samples_per_value, wish.stop * samples_per_value);
    match edge {
        Edge::Resampler => (pass, stop),
        _ => (pass, 1.0 - stop),
    }
}

/// The taps of a phase that a resampler's part takes, more than any where it can't.
pub fn prototype_taps(wish: &Wish, edge: Edge, samples_per_value: f64) -> usize {
    let (pass, stop) = transition(wish, edge, samples_per_value);
    // What a resampler lets through and what it holds off must not be the same.
    if stop <= pass || stop > 1.0 - pass {
        return usize::MAX;
    }
    crate::kaiser::taps_for(wish.reject + 2.0 * MARGIN, stop - pass)
}

// The fewest stages that hold off what comes back below the stopband's edge, with sums that are exact for samples of so many bits.
fn stages_for(wish: &Wish, r: usize) -> Option<usize> {
    if r == 1 {
        return Some(1);
    }
    let sums = 1.0 / r as f64;
    if wish.stop > sums / 2.0 {
        return None;
    }
    let holds = |stages: &usize| {
        let response = alone(*stages, r, 0);
        let alias = response.map(|response| response.cic(sums - wish.stop) / response.cic(0.0));
        alias.is_some_and(|alias| decibels(alias) <= -wish.reject - MARGIN)
    };
    let stages = (1..=MOST_STAGES).find(holds)?;
    let bits = CicDecimator::new(stages, r).ok()?.gain_bits().ok()?;
    (bits + wish.bits <= 32).then_some(stages)
}

// A CIC decimator and half-band stages as filters.
fn alone(stages: usize, r: usize, depth: usize) -> Option<Response> {
    let settings = Settings {
        stages,
        r,
        depth,
        ..Settings::default()
    };
    let file = LineFile::parked(Path::new(""), settings, Vec::new(), Vec::new());
    Response::of(&file).ok()
}

// The FIR's taps, roughly, where there are enough of them (Bellanger 1984).
fn taps_for(wish: &Wish, edge: Edge, r: usize, factor: usize) -> Option<f64> {
    let (r, factor) = (r as f64, factor as f64);
    let (ripple, stop) = allowed(wish);
    let width = match edge {
        Edge::Fir => (wish.stop - wish.pass) * r,
        _ if factor == 1.0 => 1.0,
        _ => 1.0 / factor - 2.0 * wish.stop * r,
    };
    let taps = (1.0 / (10.0 * ripple * stop)).log10() / 1.5 / width + 1.0;
    (width > 0.0 && taps <= 1.05 * MOST_TAPS as f64).then_some(taps.max(FEW_TAPS))
}

/// By how much a factor may be off in the passband and in the stopband.
pub fn allowed(wish: &Wish) -> (f64, f64) {
    let passband = 1.0 - 10f64.powf(-wish.ripple / 20.0);
    (passband, 10f64.powf(-wish.reject / 20.0))
}

// Whether a cascade behind so many samples a value holds off all from the stopband's edge on.
fn holds_off(wish: &Wish, depth: usize, filtered: usize) -> bool {
    let from = wish.stop * filtered as f64;
    let waves = (0..=PLACES).map(|k| from + (0.5 - from) * k as f64 / PLACES as f64);
    from < 0.5 && cascade_holds(wish, depth, waves)
}

// Whether it holds off what would come back below the stopband's edge.
fn keeps_aliases(wish: &Wish, depth: usize, filtered: usize) -> bool {
    let (stop, apart) = (wish.stop * filtered as f64, 0.5f64.powi(depth as i32));
    let bands = 1..=1 << (depth - 1);
    let waves = bands.map(|band| f64::from(band) * apart);
    let waves = waves.flat_map(|wave| [wave - stop, wave, wave + stop]);
    2.0 * stop < apart && cascade_holds(wish, depth, waves)
}

fn cascade_holds(wish: &Wish, depth: usize, mut waves: impl Iterator<Item = f64>) -> bool {
    let Some(response) = alone(1, 1, depth) else {
        return false;
    };
    waves.all(|wave| {
        let level = response.half_band(wave).unwrap_or(1.0);
        decibels(level) <= -wish.reject - MARGIN
    })
}
