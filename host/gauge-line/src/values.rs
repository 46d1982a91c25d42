//! Single values: the cut to 16 bits, a level as f32, the response lengths, the reach and the taps of the half-band stages.

use crate::limits::{HBF_TABLE, HBF_TABLE_98};
use crate::raw;
use crate::refusal::{Refusal, answered};

/// A sum held at −32,768 and 32,767.
#[derive(Clone, Copy, Debug, Default, PartialEq, Eq)]
pub struct Cut {
    /// What is left of it.
    pub value: i16,
    /// Whether that is another number than the sum.
    pub cut: bool,
}

/// The sum held at −32,768 and 32,767, and whether that changed it.
///
/// ```
/// use gauge_line::{Cut, cut_q15};
///
/// assert_eq!(cut_q15(40_000), Cut { value: 32_767, cut: true });
/// assert_eq!(cut_q15(32_767), Cut { value: 32_767, cut: false });
/// ```
pub fn cut_q15(sum: i64) -> Cut {
    let (mut value, mut cut) = (0, 0);
    // SAFETY: the places are this function's own.
    unsafe { raw::gauge_raw_cut_q15(sum, &mut value, &mut cut) };
    Cut {
        value,
        cut: cut > 0,
    }
}

/// The bits divided by 32768, exactly.
///
/// ```
/// assert_eq!(gauge_line::q15_to_f32(-16_384), -0.5);
/// ```
pub fn q15_to_f32(bits: i16) -> f32 {
    let mut value = 0.0;
    // SAFETY: the place is this function's own.
    unsafe { raw::gauge_raw_q15_to_f32(bits, &mut value) };
    value
}

/// The response length of a decimating cascade as the Rust original counts it, from the stage of 23 taps on.
///
/// Refused: `Depth` over 5.
///
/// ```
/// let lengths = [0, 1, 2, 3, 4, 5].map(|depth| gauge_line::hbf_dec_response_length(depth).unwrap());
/// assert_eq!(lengths, [0, 23, 28, 29, 29, 29]);
/// ```
pub fn hbf_dec_response_length(depth: usize) -> Result<usize, Refusal> {
    let mut length = 0;
    // SAFETY: the place is this function's own.
    let number = unsafe { raw::gauge_raw_hbf_dec_response_length(depth as u64, &mut length) };
    answered(number, length as usize)
}

/// The response length of an interpolating cascade as the Rust original counts it.
///
/// Refused: `Depth` over 5.
///
/// ```
/// let lengths = [0, 1, 2, 3, 4, 5].map(|depth| gauge_line::hbf_int_response_length(depth).unwrap());
/// assert_eq!(lengths, [0, 46, 112, 234, 476, 958]);
/// ```
pub fn hbf_int_response_length(depth: usize) -> Result<usize, Refusal> {
    let mut length = 0;
    // SAFETY: the place is this function's own.
    let number = unsafe { raw::gauge_raw_hbf_int_response_length(depth as u64, &mut length) };
    answered(number, length as usize)
}

/// The reach of a decimating cascade in input samples. From a fresh cascade output j follows from that many samples ending at sample j × 2^depth, those before the start being
/// zeros; the samples behind it that complete the output don't matter. [`hbf_dec_response_length`] counts stages that a cascade of that depth does not run.
///
/// Refused: `Depth` over 5.
///
/// ```
/// let reach = [0, 1, 2, 3, 4, 5].map(|depth| gauge_line::hbf_dec_reach(depth).unwrap());
/// assert_eq!(reach, [1, 11, 39, 111, 415, 1855]);
/// ```
pub fn hbf_dec_reach(depth: usize) -> Result<usize, Refusal> {
    let mut reach = 0;
    // SAFETY: the place is this function's own.
    let number = unsafe { raw::gauge_raw_hbf_dec_reach(depth as u64, &mut reach) };
    answered(number, reach as usize)
}

/// The reach of a [98 dB cascade](crate::HbfDecCascade98), in the same sense.
///
/// Refused: `Depth` over 5.
///
/// ```
/// let reach = [0, 1, 2, 3, 4, 5].map(|depth| gauge_line::hbf_dec_reach_98(depth).unwrap());
/// assert_eq!(reach, [1, 7, 27, 67, 243, 1171]);
/// ```
pub fn hbf_dec_reach_98(depth: usize) -> Result<usize, Refusal> {
    let mut reach = 0;
    // SAFETY: the place is this function's own.
    let number = unsafe { raw::gauge_raw_hbf_dec_reach_98(depth as u64, &mut reach) };
    answered(number, reach as usize)
}

/// The taps of the cascades' stages: 23 from 0 on, 10 from 23, 5 from 33, 4 from 38, 3 from 42.
///
/// ```
/// assert_eq!(gauge_line::hbf_tap_table()[42..], [0.01186105, -0.09808109, 0.58622005]);
/// ```
pub fn hbf_tap_table() -> [f32; HBF_TABLE] {
    let mut taps = [0.0; HBF_TABLE];
    // SAFETY: the place is this function's own.
    unsafe { raw::gauge_raw_hbf_tap_table(&mut taps) };
    taps
}

/// The taps of the 98 dB cascade's stages: 15 from 0 on, 6 from 15, 3 from 21, 3 from 24, 2 from 27.
///
/// ```
/// assert_eq!(gauge_line::hbf_tap_table_98()[27..], [-0.06291796, 0.5629161]);
/// ```
pub fn hbf_tap_table_98() -> [f32; HBF_TABLE_98] {
    let mut taps = [0.0; HBF_TABLE_98];
    // SAFETY: the place is this function's own.
    unsafe { raw::gauge_raw_hbf_tap_table_98(&mut taps) };
    taps
}
