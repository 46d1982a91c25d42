//! Resamplers by straight lines, over one block.

use crate::raw;
use crate::refusal::{Refusal, answered};

/// Fills `dst` and answers its length: output i is between the two samples at i × ratio_q16 / 65536, rounded down; past the end the last sample.
///
/// Refused: `Samples`, then `Ratio`.
///
/// ```
/// let mut out = [0; 4];
/// assert_eq!(gauge_line::resample_linear_q15(&[0, 100], &mut out, 32768)?, 4);
/// assert_eq!(out, [0, 50, 100, 100]);
/// # Ok::<(), gauge_line::Refusal>(())
/// ```
pub fn resample_linear_q15(src: &[i16], dst: &mut [i16], ratio_q16: i32) -> Result<usize, Refusal> {
    let mut written = 0;
    // SAFETY: each pointer is lent with the length of its own slice.
    let number = unsafe {
        raw::gauge_raw_resample_linear_q15(
            src.as_ptr(),
            src.len() as u64,
            dst.as_mut_ptr(),
            dst.len() as u64,
            ratio_q16,
            &mut written,
        )
    };
    answered(number, written as usize)
}

/// Fills `dst` and answers its length: output i is at i × ratio, rounded to f32, between the two samples there; past the end the last sample.
///
/// Refused: `Samples`, then `Ratio`.
///
/// ```
/// let mut out = [0.0; 4];
/// assert_eq!(gauge_line::resample_linear_f32(&[0.0, 1.0], &mut out, 0.5)?, 4);
/// assert_eq!(out.map(f32::to_bits), [0.0f32, 0.5, 1.0, 1.0].map(f32::to_bits));
/// # Ok::<(), gauge_line::Refusal>(())
/// ```
pub fn resample_linear_f32(src: &[f32], dst: &mut [f32], ratio: f32) -> Result<usize, Refusal> {
    let mut written = 0;
    // SAFETY: each pointer is lent with the length of its own slice.
    let number = unsafe {
        raw::gauge_raw_resample_linear_f32(
            src.as_ptr(),
            src.len() as u64,
            dst.as_mut_ptr(),
            dst.len() as u64,
            ratio,
            &mut written,
        )
    };
    answered(number, written as usize)
}
