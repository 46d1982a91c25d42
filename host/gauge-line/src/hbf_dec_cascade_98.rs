//! A cascade of half-band stages with the 98 dB taps.

use crate::limits::HBF_DEC_DELAYS;
use crate::raw;
use crate::refusal::{Refusal, answered};

/// A cascade that divides the rate by 2^depth with the 98 dB taps: the first depth stages of M = 2, 3, 3, 6, 15 taps, in fewer operations than [`HbfDecCascade`](crate::HbfDecCascade),
/// which is the line's. What each depth holds off stands in [`passband::PASSBANDS_98`](crate::passband::PASSBANDS_98), how far an output reaches back in
/// [`hbf_dec_reach_98`](crate::hbf_dec_reach_98).
#[derive(Clone, Debug, PartialEq)]
pub struct HbfDecCascade98 {
    depth: u64,
    delays: [f32; HBF_DEC_DELAYS],
}

impl HbfDecCascade98 {
    /// Opens a cascade of depth 1 to 5.
    ///
    /// Refused: `Depth`.
    pub fn new(depth: usize) -> Result<HbfDecCascade98, Refusal> {
        let mut state = HbfDecCascade98 {
            depth: 0,
            delays: [0.0; HBF_DEC_DELAYS],
        };
        // SAFETY: the fields are this function's own.
        let number = unsafe {
            raw::gauge_raw_hbf_dec_cascade_98_new(depth as u64, &mut state.depth, &mut state.delays)
        };
        answered(number, state)
    }

    /// Makes the state what its opening made it.
    ///
    /// Refused: `State`.
    pub fn reset(&mut self) -> Result<(), Refusal> {
        // SAFETY: the fields are borrowed for this call alone.
        let number =
            unsafe { raw::gauge_raw_hbf_dec_cascade_98_reset(&mut self.depth, &mut self.delays) };
        answered(number, ())
    }

    /// Takes 2^depth samples of `src` for each output, as many as `dst` has places, and answers the outputs written; the rest of src is left unread.
    ///
    /// Refused: `State`, then `Samples`.
    ///
    /// ```
    /// let mut cascade = gauge_line::HbfDecCascade98::new(2)?;
    /// let mut out = [0.0; 20];
    /// assert_eq!(cascade.process(&[1.0; 70], &mut out)?, 17);
    /// assert!((out[16] - 1.0).abs() < 1e-4);
    /// # Ok::<(), gauge_line::Refusal>(())
    /// ```
    #[inline]
    pub fn process(&mut self, src: &[f32], dst: &mut [f32]) -> Result<usize, Refusal> {
        let mut written = 0;
        // SAFETY: each pointer is lent with the length of its own slice, and the fields are borrowed for this call alone.
        let number = unsafe {
            raw::gauge_raw_hbf_dec_cascade_98_process(
                &mut self.depth,
                &mut self.delays,
                src.as_ptr(),
                src.len() as u64,
                dst.as_mut_ptr(),
                dst.len() as u64,
                &mut written,
            )
        };
        answered(number, written as usize)
    }
}

#[cfg(test)]
mod tests {
    use super::*;

    #[test]
    fn a_reset_is_a_fresh_opening() {
        let mut state = HbfDecCascade98::new(1).unwrap();
        let fresh = state.clone();
        assert_eq!(fresh.depth, 1);
        state.process(&[1.0, 2.0], &mut [0.0]).unwrap();
        assert_ne!(state, fresh);
        state.reset().unwrap();
        assert_eq!(state, fresh);
    }

    #[test]
    fn a_damaged_state_is_refused() {
        let mut state = HbfDecCascade98::new(1).unwrap();
        state.depth = 6;
        assert_eq!(state.process(&[1.0, 2.0], &mut [0.0]), Err(Refusal::State));
        assert_eq!(state.reset(), Err(Refusal::State));
    }
}
