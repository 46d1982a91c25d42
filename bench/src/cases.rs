//! What is raced, by kind of converter.

mod cic;
mod half_band;
pub mod line;
mod linear;
pub mod linear_phase;
mod polyphase_q15;
pub mod resampler;

use crate::case::Case;

/// Samples of a converter's stream, at its higher rate.
const STREAM: usize = 65_536;
/// Samples of a block, at the converter's higher rate.
pub const BLOCK: usize = 4_096;
pub const SHORT_BLOCK: usize = 64;
const BLOCKS: &[usize] = &[BLOCK, SHORT_BLOCK];

pub fn converters() -> Vec<Case> {
    [
        cic::cases(),
        polyphase_q15::cases(),
        linear::cases(),
        half_band::cases(),
        linear_phase::cases(),
        resampler::cases(),
    ]
    .into_iter()
    .flatten()
    .collect()
}
