//! Samples and taps: a linear congruential generator from a fixed seed, so that every run races over the same ones.

use embedded_dsp::types::q15;

const SEED: u32 = 12_345;

fn random(count: usize) -> impl Iterator<Item = i32> {
    let states = std::iter::successors(Some(SEED), |state| {
        Some(state.wrapping_mul(1_664_525).wrapping_add(1_013_904_223))
    });
    states.skip(1).take(count).map(|state| state as i32)
}

/// What a 16-bit pressure cell gives.
pub fn cells(count: usize) -> Vec<i32> {
    random(count).map(|state| state >> 16).collect()
}

/// Q15 of half the range: over the whole of it the original's linear product wraps, where ours is exact.
pub fn fixed(count: usize) -> Vec<i16> {
    random(count).map(|state| (state >> 17) as i16).collect()
}

pub fn levels(count: usize) -> Vec<f32> {
    random(count)
        .map(|state| (state >> 8) as f32 / 8_388_608.0)
        .collect()
}

/// FIR taps small enough that few sums are held at the ends of the range.
pub fn taps(count: usize) -> Vec<i16> {
    random(count).map(|state| (state >> 20) as i16).collect()
}

/// The prototype of a resampler.
pub fn prototype(count: usize) -> Vec<f32> {
    random(count)
        .map(|state| (state >> 8) as f32 / 83_886_080.0)
        .collect()
}

/// The same bits in the original's type.
pub fn to_q15(bits: Vec<i16>) -> Vec<q15> {
    bits.into_iter().map(q15::from_bits).collect()
}
