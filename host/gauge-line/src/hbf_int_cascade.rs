//! A cascade of half-band stages that makes more of blocks.

use crate::limits::HBF_INT_DELAYS;
use crate::raw;
use crate::refusal::{Refusal, answered};

/// A cascade that multiplies the rate by 2^depth: the first depth stages of M = 23, 10, 5, 4, 3 taps.
#[derive(Clone, Debug, PartialEq)]
pub struct HbfIntCascade {
    depth: u64,
    delays: [f32; HBF_INT_DELAYS],
}

impl HbfIntCascade {
    /// Opens a cascade of depth 1 to 5.
    ///
    /// Refused: `Depth`.
    pub fn new(depth: usize) -> Result<HbfIntCascade, Refusal> {
        let mut state = HbfIntCascade {
            depth: 0,
            delays: [0.0; HBF_INT_DELAYS],
        };
        // SAFETY: the fields are this function's own.
        let number = unsafe {
            raw::gauge_raw_hbf_int_cascade_new(depth as u64, &mut state.depth, &mut state.delays)
        };
        answered(number, state)
    }

    /// Makes the state what its opening made it.
    ///
    /// Refused: `State`.
    pub fn reset(&mut self) -> Result<(), Refusal> {
        // SAFETY: the fields are borrowed for this call alone.
        let number =
            unsafe { raw::gauge_raw_hbf_int_cascade_reset(&mut self.depth, &mut self.delays) };
        answered(number, ())
    }

    /// Takes samples of `src`, each for 2^depth outputs, as many as `dst` has places for, and answers the outputs written.
    ///
    /// Refused: `State`, then `Samples`.
    ///
    /// ```
    /// let mut cascade = gauge_line::HbfIntCascade::new(2)?;
    /// let mut out = [0.0; 9];
    /// assert_eq!(cascade.process(&[1.0, 1.0, 1.0], &mut out)?, 8);
    /// # Ok::<(), gauge_line::Refusal>(())
    /// ```
    #[inline]
    pub fn process(&mut self, src: &[f32], dst: &mut [f32]) -> Result<usize, Refusal> {
        let mut written = 0;
        // SAFETY: each pointer is lent with the length of its own slice, and the fields are borrowed for this call alone.
        let number = unsafe {
            raw::gauge_raw_hbf_int_cascade_process(
                &mut self.depth,
                &mut self.delays,
                src.as_ptr(),
                src.len() as u64,
                dst.as_mut_ptr(),
                dst.len() as u64,
                &mut written,
            )
        };
        answered(number, written as usize)
    }
}

#[cfg(test)]
mod tests {
    use super::*;

    #[test]
    fn a_reset_is_a_fresh_opening() {
        let mut state = HbfIntCascade::new(1).unwrap();
        let fresh = state.clone();
        assert_eq!(fresh.depth, 1);
        state.process(&[1.0], &mut [0.0; 2]).unwrap();
        assert_ne!(state, fresh);
        state.reset().unwrap();
        assert_eq!(state, fresh);
    }

    #[test]
    fn a_damaged_state_is_refused() {
        let mut state = HbfIntCascade::new(1).unwrap();
        state.depth = 6;
        assert_eq!(state.process(&[1.0], &mut [0.0; 2]), Err(Refusal::State));
        assert_eq!(state.reset(), Err(Refusal::State));
    }
}
