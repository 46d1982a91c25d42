//! One half-band stage that halves the rate.

use crate::limits::{HBF_DEC_DELAY, MOST_HALF_BAND_TAPS};
use crate::raw;
use crate::refusal::{Refusal, answered};

/// A half-band filter that makes one f32 of each two.
#[derive(Clone, Debug, PartialEq)]
pub struct HbfDec {
    m: u64,
    coeffs: [f32; MOST_HALF_BAND_TAPS],
    delay: [f32; HBF_DEC_DELAY],
}

impl HbfDec {
    /// Opens a stage with 1 to 23 taps, one side of the filter, outermost first; they are copied.
    ///
    /// Refused: `HalfBandTaps`.
    pub fn new(taps: &[f32]) -> Result<HbfDec, Refusal> {
        let mut state = HbfDec {
            m: 0,
            coeffs: [0.0; MOST_HALF_BAND_TAPS],
            delay: [0.0; HBF_DEC_DELAY],
        };
        // SAFETY: the pointer is lent with the length of its own slice, and the fields are this function's own.
        let number = unsafe {
            raw::gauge_raw_hbf_dec_new(
                taps.as_ptr(),
                taps.len() as u64,
                &mut state.m,
                &mut state.coeffs,
                &mut state.delay,
            )
        };
        answered(number, state)
    }

    /// Makes the state what its opening made it.
    ///
    /// Refused: `State`.
    pub fn reset(&mut self) -> Result<(), Refusal> {
        // SAFETY: the fields are borrowed for this call alone.
        let number =
            unsafe { raw::gauge_raw_hbf_dec_reset(&mut self.m, &mut self.coeffs, &mut self.delay) };
        answered(number, ())
    }

    /// Takes the samples `a` and `b` and answers one output.
    ///
    /// Refused: `State`.
    ///
    /// ```
    /// let mut stage = gauge_line::HbfDec::new(&[0.5])?;
    /// assert_eq!(stage.process_pair(1.0, 0.0)?, 0.25);
    /// assert_eq!(stage.process_pair(0.0, 0.0)?, 0.25);
    /// # Ok::<(), gauge_line::Refusal>(())
    /// ```
    #[inline]
    pub fn process_pair(&mut self, a: f32, b: f32) -> Result<f32, Refusal> {
        let mut value = 0.0;
        // SAFETY: every place is borrowed for this call alone.
        let number = unsafe {
            raw::gauge_raw_hbf_dec_process_pair(
                &mut self.m,
                &mut self.coeffs,
                &mut self.delay,
                a,
                b,
                &mut value,
            )
        };
        answered(number, value)
    }

    /// Takes pairs of `src`, one for each output, as many as `dst` has places, and answers the outputs written; an odd last sample is left unread.
    ///
    /// Refused: `State`, then `Samples`.
    ///
    /// ```
    /// let mut stage = gauge_line::HbfDec::new(&[0.5])?;
    /// let mut out = [0.0; 4];
    /// assert_eq!(stage.process(&[1.0, 0.0, 0.0, 0.0, 9.0], &mut out)?, 2);
    /// assert_eq!(out.map(f32::to_bits), [0.25f32, 0.25, 0.0, 0.0].map(f32::to_bits));
    /// # Ok::<(), gauge_line::Refusal>(())
    /// ```
    #[inline]
    pub fn process(&mut self, src: &[f32], dst: &mut [f32]) -> Result<usize, Refusal> {
        let mut written = 0;
        // SAFETY: each pointer is lent with the length of its own slice, and the fields are borrowed for this call alone.
        let number = unsafe {
            raw::gauge_raw_hbf_dec_process(
                &mut self.m,
                &mut self.coeffs,
                &mut self.delay,
                src.as_ptr(),
                src.len() as u64,
                dst.as_mut_ptr(),
                dst.len() as u64,
                &mut written,
            )
        };
        answered(number, written as usize)
    }
}

#[cfg(test)]
mod tests {
    use super::*;

    #[test]
    fn each_field_is_what_its_name_says() {
        let state = HbfDec::new(&[0.1, 0.2]).unwrap();
        assert_eq!(state.m, 2);
        assert_eq!(state.coeffs[..3], [0.1, 0.2, 0.0]);
        assert_eq!(state.delay, [0.0; HBF_DEC_DELAY]);
    }

    #[test]
    fn a_reset_is_a_fresh_opening() {
        let mut state = HbfDec::new(&[0.1, 0.2]).unwrap();
        let fresh = state.clone();
        state.process_pair(1.0, 2.0).unwrap();
        assert_ne!(state, fresh);
        state.reset().unwrap();
        assert_eq!(state, fresh);
    }

    #[test]
    fn a_damaged_state_is_refused() {
        let mut state = HbfDec::new(&[0.1]).unwrap();
        state.m = 24;
        assert_eq!(state.process_pair(1.0, 2.0), Err(Refusal::State));
        assert_eq!(state.process(&[1.0, 2.0], &mut [0.0]), Err(Refusal::State));
        assert_eq!(state.reset(), Err(Refusal::State));
    }
}
