//! Samples and spans of a line's feeds.

use crate::lent::{LONGEST, Lent};
use crate::line_settings::Settings;
use crate::rng::Rng;
use crate::samples;
use crate::settings;

fn level(rng: &mut Rng) -> u32 {
    (rng.within(0, 80_000) as i32 - 40_000) as u32
}

/// Levels that stay within 16 bits or leave them by little, or anything.
pub fn list(rng: &mut Rng, length: u64) -> Lent {
    if rng.one_in(3) {
        return samples::list(rng, length, 40);
    }
    Lent {
        length: length as usize,
        pattern: level(rng),
        stride: rng.pick(&[0, 1, 7, u32::MAX, 1_000_003]),
        listed: (0..length.min(40)).map(|_| level(rng)).collect(),
    }
}

/// A long list of such levels, or of anything.
pub fn noise(rng: &mut Rng, length: u64) -> Lent {
    match rng.one_in(3) {
        true => samples::noise(rng, length),
        false => Lent::listed((0..length).map(|_| level(rng)).collect()),
    }
}

/// None, one, few, or as many as make some outputs.
pub fn some_length(rng: &mut Rng, settings: &Settings) -> u64 {
    let samples = settings.samples_for_output();
    let most = rng.pick(&[300, 300, 300, 3000, 3000, LONGEST]);
    match rng.below(8) {
        0 => rng.below(2),
        1 | 2 => rng.within(1, 12),
        _ => ((samples * rng.within(1, 24) as f32) as u64 + rng.below(4)).min(most),
    }
}

pub fn some_places(rng: &mut Rng, outputs: u64) -> u64 {
    match rng.below(8) {
        0 | 1 => rng.below(3),
        2 => rng.below(12),
        _ => settings::places_around(rng, outputs.min(400)),
    }
}
