//! One half-band stage that doubles the rate.

use crate::limits::{HBF_INT_DELAY, MOST_HALF_BAND_TAPS};
use crate::raw;
use crate::refusal::{Refusal, answered};

/// A half-band filter that makes two f32 of each.
#[derive(Clone, Debug, PartialEq)]
pub struct HbfInt {
    m: u64,
    coeffs: [f32; MOST_HALF_BAND_TAPS],
    delay: [f32; HBF_INT_DELAY],
}

impl HbfInt {
    /// Opens a stage with 1 to 23 taps, one side of the filter, outermost first; they are copied.
    ///
    /// Refused: `HalfBandTaps`.
    pub fn new(taps: &[f32]) -> Result<HbfInt, Refusal> {
        let mut state = HbfInt {
            m: 0,
            coeffs: [0.0; MOST_HALF_BAND_TAPS],
            delay: [0.0; HBF_INT_DELAY],
        };
        // SAFETY: the pointer is lent with the length of its own slice, and the fields are this function's own.
        let number = unsafe {
            raw::gauge_raw_hbf_int_new(
                taps.as_ptr(),
                taps.len() as u64,
                &mut state.m,
                &mut state.coeffs,
                &mut state.delay,
            )
        };
        answered(number, state)
    }

    /// Makes the state what its opening made it.
    ///
    /// Refused: `State`.
    pub fn reset(&mut self) -> Result<(), Refusal> {
        // SAFETY: the fields are borrowed for this call alone.
        let number =
            unsafe { raw::gauge_raw_hbf_int_reset(&mut self.m, &mut self.coeffs, &mut self.delay) };
        answered(number, ())
    }

    /// Takes one sample and answers two outputs, the even one first.
    ///
    /// Refused: `State`.
    ///
    /// ```
    /// let mut stage = gauge_line::HbfInt::new(&[0.5])?;
    /// assert_eq!(stage.process_sample(1.0)?, (1.0, 0.5));
    /// # Ok::<(), gauge_line::Refusal>(())
    /// ```
    #[inline]
    pub fn process_sample(&mut self, x: f32) -> Result<(f32, f32), Refusal> {
        let (mut even, mut odd) = (0.0, 0.0);
        // SAFETY: every place is borrowed for this call alone.
        let number = unsafe {
            raw::gauge_raw_hbf_int_process_sample(
                &mut self.m,
                &mut self.coeffs,
                &mut self.delay,
                x,
                &mut even,
                &mut odd,
            )
        };
        answered(number, (even, odd))
    }

    /// Takes samples of `src`, each for two outputs, as many as `dst` has two places for, and answers the outputs written.
    ///
    /// Refused: `State`, then `Samples`.
    ///
    /// ```
    /// let mut stage = gauge_line::HbfInt::new(&[0.5])?;
    /// let mut out = [0.0; 5];
    /// assert_eq!(stage.process(&[1.0, 0.0], &mut out)?, 4);
    /// assert_eq!(out.map(f32::to_bits), [1.0f32, 0.5, 0.0, 0.5, 0.0].map(f32::to_bits));
    /// # Ok::<(), gauge_line::Refusal>(())
    /// ```
    #[inline]
    pub fn process(&mut self, src: &[f32], dst: &mut [f32]) -> Result<usize, Refusal> {
        let mut written = 0;
        // SAFETY: each pointer is lent with the length of its own slice, and the fields are borrowed for this call alone.
        let number = unsafe {
            raw::gauge_raw_hbf_int_process(
                &mut self.m,
                &mut self.coeffs,
                &mut self.delay,
                src.as_ptr(),
                src.len() as u64,
                dst.as_mut_ptr(),
                dst.len() as u64,
                &mut written,
            )
        };
        answered(number, written as usize)
    }
}

#[cfg(test)]
mod tests {
    use super::*;

    #[test]
    fn each_field_is_what_its_name_says() {
        let state = HbfInt::new(&[0.1, 0.2]).unwrap();
        assert_eq!(state.m, 2);
        assert_eq!(state.coeffs[..3], [0.1, 0.2, 0.0]);
        assert_eq!(state.delay, [0.0; HBF_INT_DELAY]);
    }

    #[test]
    fn a_reset_is_a_fresh_opening() {
        let mut state = HbfInt::new(&[0.1, 0.2]).unwrap();
        let fresh = state.clone();
        state.process_sample(1.0).unwrap();
        assert_ne!(state, fresh);
        state.reset().unwrap();
        assert_eq!(state, fresh);
    }

    #[test]
    fn a_damaged_state_is_refused() {
        let mut state = HbfInt::new(&[0.1]).unwrap();
        state.m = 24;
        assert_eq!(state.process_sample(1.0), Err(Refusal::State));
        assert_eq!(state.process(&[1.0], &mut [0.0; 2]), Err(Refusal::State));
        assert_eq!(state.reset(), Err(Refusal::State));
    }
}
