//! What a line promises of a passband and a stopband, in dB of what a steady sample is multiplied by.

use crate::response::{Response, decibels};

// Places that are looked at for each peak that a response can have, and at most.
const EACH: f64 = 8.0;
const MOST: f64 = 8192.0;
// The best of them, around which is looked closer.
const CLOSER: usize = 8;
const LEAST: f64 = 256.0;
// Waves whose images are looked for.
const WAVES: usize = 48;

/// From 0 to the end of a passband.
#[derive(Clone, Copy, Debug, PartialEq)]
pub struct Passband {
    /// The lowest level, in dB.
    pub least: f64,
    /// The highest.
    pub greatest: f64,
}

/// From the edge of a stopband to half the rate of the samples. Levels are in dB, and below 0.
#[derive(Clone, Copy, Debug, PartialEq)]
pub struct Stopband {
    /// The level at its edge.
    pub edge: f64,
    /// The highest level of all, wherever it shows.
    pub greatest: f64,
    /// Its frequency, in cycles a sample.
    pub at: f64,
}

/// The levels of a passband that ends here, in cycles a sample.
pub fn passband(response: &Response, end: f64) -> Passband {
    let level = |frequency: f64| response.line(frequency);
    let (_, highest) = highest(level, (0.0, end), count(response, end));
    let (_, lowest) = lowest(level, (0.0, end), count(response, end));
    Passband {
        least: relative(response, lowest),
        greatest: relative(response, highest),
    }
}

/// The levels of a stopband that begins here, in cycles a sample.
pub fn stopband(response: &Response, edge: f64) -> Stopband {
    let level = |frequency: f64| response.line(frequency);
    let parts = parts(response, edge).into_iter().map(|part| {
        let count = count(response, part.1 - part.0);
        highest(level, part, count)
    });
    let stronger = |one: (f64, f64), other: (f64, f64)| if other.1 > one.1 { other } else { one };
    let (at, greatest) = parts.fold((edge, level(edge)), stronger);
    Stopband {
        edge: relative(response, level(edge)),
        greatest: relative(response, greatest),
        at,
    }
}

/// The strongest image of waves up to here, in cycles a sample, where the resampler is on.
pub fn images(response: &Response, end: f64) -> Option<f64> {
    let wave = |k: usize| end * k as f64 / WAVES as f64;
    let levels = (1..=WAVES).map(|k| response.strongest_image(wave(k)));
    let levels: Option<Vec<f64>> = levels.collect();
    let greatest = levels?.into_iter().fold(0.0, f64::max);
    Some(relative(response, greatest))
}

// The parts of a stopband that can have its highest level: of waves that are the same behind the CIC decimator the slowest is the strongest.
fn parts(response: &Response, edge: f64) -> Vec<(f64, f64)> {
    let sums = 1.0 / response.samples_per_sum();
    let own = (edge, (0.5 * sums).min(0.5));
    let next = ((sums - edge).max(edge), sums.min(0.5));
    let parts = [own, next].into_iter();
    parts.filter(|(from, to)| from < to).collect()
}

fn relative(response: &Response, level: f64) -> f64 {
    decibels(level) - decibels(response.line(0.0))
}

fn count(response: &Response, width: f64) -> usize {
    (EACH * response.reach() * width).clamp(LEAST, MOST) as usize
}

fn lowest(level: impl Fn(f64) -> f64, part: (f64, f64), count: usize) -> (f64, f64) {
    let (at, level) = highest(|frequency| -level(frequency), part, count);
    (at, -level)
}

// Where a level is highest in a part, and how high: of so many places the best, and then between their neighbours.
fn highest(level: impl Fn(f64) -> f64, (from, to): (f64, f64), count: usize) -> (f64, f64) {
    let apart = (to - from) / count as f64;
    let places = (0..=count).map(|k| from + k as f64 * apart);
    let mut found: Vec<(f64, f64)> = places.map(|at| (at, level(at))).collect();
    found.sort_by(|one, other| other.1.total_cmp(&one.1));
    found.truncate(CLOSER);
    let closer = found.clone().into_iter().map(|(at, _)| {
        let at = peak(&level, ((at - apart).max(from), (at + apart).min(to)));
        (at, level(at))
    });
    found.extend(closer);
    let higher = |one: (f64, f64), other: (f64, f64)| if other.1 > one.1 { other } else { one };
    found.into_iter().reduce(higher).unwrap_or((from, 0.0))
}

// Where a level that rises and then falls is highest.
fn peak(level: impl Fn(f64) -> f64, (mut low, mut up): (f64, f64)) -> f64 {
    for _ in 0..20 {
        let third = (up - low) / 3.0;
        match level(low + third) < level(up - third) {
            true => low += third,
            false => up -= third,
        }
    }
    (low + up) / 2.0
}
