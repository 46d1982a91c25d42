//! Cases of `resample_linear_q15`.

use crate::archive::q15;
use crate::case::{Case, Cases, Operation};
use crate::differences;
use crate::linear::{self, Block};
use crate::q15_samples;
use crate::rng::Rng;
use embedded_dsp::resampling::resample_linear_q15;

const LINEAR: Operation<Block<i16, i32>> = Operation {
    code: 0x33,
    name: "resample_linear_q15",
    refusal: Some(|call| call.lent.refusal(|ratio| ratio > 0)),
    rust: |call| call.fill(resampled),
    archive: q15::resample_linear_q15,
};

/// What the Rust answers before the first output whose product leaves i32, and what 01 says from there on.
fn resampled(samples: &[i16], span: &mut [i16], ratio: i32) {
    let wraps = |i: &usize| differences::linear_product_wraps(samples, ratio, *i);
    let first = (0..span.len()).find(wraps).unwrap_or(span.len());
    let (before, from_there) = span.split_at_mut(first);
    let mut places = q15_samples::rust(before);
    resample_linear_q15(&q15_samples::rust(samples), &mut places, ratio);
    before.copy_from_slice(&q15_samples::bits(&places));
    for (i, place) in from_there.iter_mut().enumerate() {
        *place = differences::linear_q15(samples, ratio, first + i);
    }
}

fn some_ratio(rng: &mut Rng) -> i32 {
    match rng.below(16) {
        0 => rng.pick(&[0, -1, i32::MIN, i32::MIN + 1, -65_536]),
        1 => rng.pick(&[i32::MAX, i32::MAX - 1, 1 << 30, 1]),
        2..=5 => rng.pick(&[65_535, 65_536, 65_537, 32_768, 131_072]),
        6..=8 => rng.within(1, 4096) as i32,
        9 => rng.within(1, i32::MAX as u64) as i32,
        _ => rng.within(4097, 200_000) as i32,
    }
}

fn some_call(rng: &mut Rng) -> Box<dyn Case> {
    let ratio = some_ratio(rng);
    let inside = |length| (length << 16) / ratio.max(1) as u64;
    let buffers = linear::some_buffers(rng, ratio, inside, q15_samples::list);
    LINEAR.of(buffers).0
}

fn longest_call(rng: &mut Rng) -> Box<dyn Case> {
    let ratio = |rng: &mut Rng| rng.within(1 << 26, i32::MAX as u64) as i32;
    LINEAR
        .of(linear::longest_buffers(rng, ratio, q15_samples::list))
        .0
}

/// The last place of the longest call: before the last sample, at it, just past it and far past it.
pub fn at_limits() -> Cases {
    let ratios = [32_768, 65_535, 65_536, 65_537, 131_072];
    ratios
        .into_iter()
        .map(|ratio| LINEAR.of(linear::most_buffers(ratio, 0, 1)).0)
        .collect()
}

pub fn long(rng: &mut Rng) -> Cases {
    let ratio = rng.within(1 << 14, 1 << 18) as i32;
    let buffers = linear::long_buffers(rng, ratio, q15_samples::noise);
    vec![LINEAR.of(buffers).0]
}

pub fn cases(rng: &mut Rng) -> Cases {
    match rng.below(128) {
        0 => vec![longest_call(rng)],
        _ => vec![some_call(rng)],
    }
}
