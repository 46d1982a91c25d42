//! Factors, lengths and spans around 01's limits, for every converter but the CIC ones.

use crate::lent::Lent;
use crate::rng::Rng;

/// 01's limit of a factor.
const MOST_FACTOR: u64 = 4096;

/// 01's limit of samples, taps and places in a block.
pub const MOST: u64 = 65_536;

pub fn bad_factor(rng: &mut Rng) -> u64 {
    let far = rng.next() | 1 << 40;
    rng.pick(&[
        0,
        0,
        MOST_FACTOR + 1,
        MOST_FACTOR + 1,
        1 << 32,
        (1 << 32) + 1,
        u64::MAX,
        far,
    ])
}

/// A factor within the limits: small, around the number of taps, anything.
pub fn factor_around(rng: &mut Rng, taps: u64) -> u64 {
    let factor = match rng.below(16) {
        0 => rng.pick(&[MOST_FACTOR, MOST_FACTOR - 1]),
        1 => rng.within(1, MOST_FACTOR),
        2 => rng.within(1, 64),
        3..=8 => (taps + rng.below(3)).saturating_sub(1),
        _ => rng.within(1, 8),
    };
    factor.clamp(1, MOST_FACTOR)
}

/// The places of a span for so many outputs: none, short, exact, more.
pub fn places_around(rng: &mut Rng, outputs: u64) -> u64 {
    match rng.below(8) {
        0 => 0,
        1 => rng.below(outputs + 1),
        2 => outputs.saturating_sub(1),
        3 | 4 => outputs,
        5 => outputs + 1,
        _ => outputs + rng.within(2, 9),
    }
}

/// A number of samples or taps that a block refuses; `replay` has room for it.
pub fn bad_length(rng: &mut Rng) -> usize {
    rng.pick(&[0, 0, MOST as usize + 1, MOST as usize + 64])
}

/// A number of places that a block refuses.
pub fn bad_places(rng: &mut Rng) -> usize {
    rng.pick(&[MOST as usize + 1, MOST as usize + 64])
}

/// Now and then gives a block samples or a span that it refuses.
pub fn spoil_block(rng: &mut Rng, samples: &mut Lent, span: &mut Lent) {
    if rng.one_in(24) {
        samples.length = bad_length(rng);
    }
    if rng.one_in(24) {
        span.length = bad_places(rng);
    }
}

/// Just below 01's limit, at it and just past it.
pub fn length_around(rng: &mut Rng) -> u64 {
    rng.pick(&[MOST - 1, MOST, MOST, MOST + 1])
}

/// Many samples, and a span for about what they make, where so many samples make so many outputs: both within 01's limit.
pub fn long_block(rng: &mut Rng, takes: u64, gives: u64) -> (u64, u64) {
    let most = (MOST / gives * takes).min(MOST);
    let length = rng.within(most / 2, most);
    let places = places_around(rng, length / takes * gives);
    (length, places.min(MOST))
}

/// A depth that every cascade refuses; the line takes 0 for off.
pub fn bad_depth(rng: &mut Rng) -> u64 {
    rng.pick(&[0, 6, 6, 7, 1 << 32, (1 << 32) + 1, u64::MAX])
}

/// P and T of a resampler, any that 01 allows.
pub fn phases_and_taps(rng: &mut Rng) -> (u64, u64) {
    (rng.within(2, 64), rng.within(1, 16))
}
