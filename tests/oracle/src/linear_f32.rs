//! Cases of `resample_linear_f32`.

use crate::archive::float;
use crate::case::{Case, Cases, Operation};
use crate::differences;
use crate::float_samples;
use crate::linear::{self, Block};
use crate::rng::Rng;
use embedded_dsp::resampling::resample_linear_f32;

const LINEAR: Operation<Block<f32, f32>> = Operation {
    code: 0x51,
    name: "resample_linear_f32",
    refusal: Some(|call| call.lent.refusal(|ratio| ratio.is_finite() && ratio > 0.0)),
    rust: |call| call.fill(resampled),
    archive: float::resample_linear_f32,
};

/// What the Rust answers before the first position of 2^64 or more, and what 01 says from there on.
fn resampled(samples: &[f32], span: &mut [f32], ratio: f32) {
    let is_far = |i: &usize| differences::linear_position_is_far(ratio, *i);
    let first = (0..span.len()).find(is_far).unwrap_or(span.len());
    let (before, from_there) = span.split_at_mut(first);
    resample_linear_f32(samples, before, ratio);
    from_there.fill(samples[samples.len() - 1]);
}

fn some_ratio(rng: &mut Rng) -> f32 {
    let two_to_64 = 18_446_744_073_709_551_616.0;
    match rng.below(16) {
        0 => rng.pick(&[0.0, -0.0, -1.0, f32::NAN, f32::INFINITY, f32::NEG_INFINITY]),
        1 => rng.pick(&[f32::MIN, -f32::MIN_POSITIVE, -1e-45, -0.5]),
        2 => rng.pick(&[1e-45, f32::MIN_POSITIVE, 1e-30, 1e-9]),
        3 => rng.pick(&[f32::MAX, 3e38, 1e30, two_to_64, two_to_64 / 2.0]),
        4 => f32::from_bits((two_to_64 / 8.0).to_bits() + rng.below(1 << 24) as u32),
        5 => f32::from_bits(rng.below(0x7f80_0000) as u32),
        6..=9 => rng.pick(&[1.0, 0.5, 2.0, 0.25, 1.5, 0.1, 1.0 / 3.0, 0.999_999_94]),
        _ => rng.within(1, 1 << 22) as f32 / (1 << 20) as f32,
    }
}

fn some_call(rng: &mut Rng) -> Box<dyn Case> {
    let ratio = some_ratio(rng);
    let inside = |length| (length as f32 / ratio).clamp(0.0, 100.0) as u64;
    let buffers = linear::some_buffers(rng, ratio, inside, float_samples::list);
    LINEAR.of(buffers).0
}

fn longest_call(rng: &mut Rng) -> Box<dyn Case> {
    let ratio = |rng: &mut Rng| rng.within(1, 1 << 18) as f32 / 8.0;
    LINEAR
        .of(linear::longest_buffers(rng, ratio, float_samples::list))
        .0
}

/// The last place of the longest call: before the last sample, at it, just past it and far past it.
pub fn at_limits() -> Cases {
    let ratios = [0.5, 0.999_985, 0.999_99, 1.0, 1.000_01, 1.000_015_3, 2.0];
    let samples_from = 1.0f32.to_bits();
    ratios
        .into_iter()
        .map(|ratio| LINEAR.of(linear::most_buffers(ratio, samples_from, 97)).0)
        .collect()
}

pub fn long(rng: &mut Rng) -> Cases {
    let ratio = rng.within(1 << 14, 1 << 18) as f32 / 65_536.0;
    let buffers = linear::long_buffers(rng, ratio, float_samples::noise);
    vec![LINEAR.of(buffers).0]
}

pub fn cases(rng: &mut Rng) -> Cases {
    match rng.below(128) {
        0 => vec![longest_call(rng)],
        _ => vec![some_call(rng)],
    }
}
