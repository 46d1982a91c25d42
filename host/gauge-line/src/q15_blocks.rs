//! FIRs on Q15 over one block, without a state.

use crate::raw;
use crate::refusal::{Refusal, answered};

/// What a FIR block wrote.
#[derive(Clone, Copy, Debug, Default, PartialEq, Eq)]
pub struct Filtered {
    /// Outputs written to the front of the span.
    pub written: usize,
    /// How many of them were cut to 16 bits.
    pub cuts: usize,
}

impl Filtered {
    // From the archive's counts: neither is above the length of a slice, so both fit.
    fn from_counts(written: u64, cuts: u64) -> Filtered {
        Filtered {
            written: written as usize,
            cuts: cuts as usize,
        }
    }
}

/// A decimating FIR: output i is the cut to 16 bits of the sum over t of src\[i × factor + t\] × coeffs\[t\] / 32768, each product rounded down by itself. As many outputs as
/// whole windows in `src` and places in `dst`; answers how many, and how many of them were cut.
///
/// Refused: `FirFactor`, `Taps`, `Samples`.
///
/// ```
/// use gauge_line::{Filtered, polyphase_decimate_q15};
///
/// let mut out = [0; 2];
/// let made = polyphase_decimate_q15(&[-1, -1], &[1, 1], 1, &mut out)?;
/// assert_eq!((made, out), (Filtered { written: 1, cuts: 0 }, [-2, 0]));
/// // Each output is the sum of two, and the first passes 32,767.
/// let made = polyphase_decimate_q15(&[20_000, 20_000, -9_000], &[32_767; 2], 1, &mut out)?;
/// assert_eq!((made, out), (Filtered { written: 2, cuts: 1 }, [32_767, 10_999]));
/// # Ok::<(), gauge_line::Refusal>(())
/// ```
pub fn polyphase_decimate_q15(
    src: &[i16],
    coeffs: &[i16],
    decimation_factor: usize,
    dst: &mut [i16],
) -> Result<Filtered, Refusal> {
    let (mut written, mut cuts) = (0, 0);
    // SAFETY: each pointer is lent with the length of its own slice.
    let number = unsafe {
        raw::gauge_raw_polyphase_decimate_q15(
            src.as_ptr(),
            src.len() as u64,
            coeffs.as_ptr(),
            coeffs.len() as u64,
            decimation_factor as u64,
            dst.as_mut_ptr(),
            dst.len() as u64,
            &mut written,
            &mut cuts,
        )
    };
    answered(number, Filtered::from_counts(written, cuts))
}

/// An interpolating FIR, with L the factor and K = coeffs / L: output i × L + p is the cut to 16 bits of L × the sum over t < K of src\[i + t\] × coeffs\[t × L + p\] / 32768,
/// each product rounded down by itself. As many outputs as (src − K + 1) × L and places in `dst`; answers how many, and how many of them were cut.
///
/// Refused: `FirFactor`, `Taps`, `Samples`, `TapsMultiple`.
///
/// ```
/// use gauge_line::{Filtered, polyphase_interpolate_q15};
///
/// let mut out = [0; 2];
/// let made = polyphase_interpolate_q15(&[16384], &[16384, 8192], 2, &mut out)?;
/// assert_eq!((made, out), (Filtered { written: 2, cuts: 0 }, [16384, 8192]));
/// # Ok::<(), gauge_line::Refusal>(())
/// ```
pub fn polyphase_interpolate_q15(
    src: &[i16],
    coeffs: &[i16],
    interpolation_factor: usize,
    dst: &mut [i16],
) -> Result<Filtered, Refusal> {
    let (mut written, mut cuts) = (0, 0);
    // SAFETY: each pointer is lent with the length of its own slice.
    let number = unsafe {
        raw::gauge_raw_polyphase_interpolate_q15(
            src.as_ptr(),
            src.len() as u64,
            coeffs.as_ptr(),
            coeffs.len() as u64,
            interpolation_factor as u64,
            dst.as_mut_ptr(),
            dst.len() as u64,
            &mut written,
            &mut cuts,
        )
    };
    answered(number, Filtered::from_counts(written, cuts))
}
