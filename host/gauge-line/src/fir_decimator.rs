//! The decimating FIR one sample at a time.

use crate::limits::MOST_TAPS;
use crate::raw;
use crate::refusal::{Refusal, answered};
use crate::values::Cut;

/// A FIR on Q15 samples that thins them by a factor, as the line has it.
#[derive(Clone, Debug, PartialEq, Eq)]
pub struct FirDecimator {
    taps: [i16; MOST_TAPS],
    tap_count: u64,
    factor: u64,
    delay: [i16; MOST_TAPS],
    wait: u64,
}

impl FirDecimator {
    /// Opens a FIR of 1 to [`MOST_TAPS`] taps, which are copied, and a factor of 1 to 4,096. No taps mean off in the line alone; here they are refused.
    ///
    /// Refused: `FirFactor`, `Taps`.
    pub fn new(taps: &[i16], factor: usize) -> Result<FirDecimator, Refusal> {
        let mut state = FirDecimator {
            taps: [0; MOST_TAPS],
            tap_count: 0,
            factor: 0,
            delay: [0; MOST_TAPS],
            wait: 0,
        };
        // SAFETY: the pointer is lent with the length of its own slice, and the fields are this function's own.
        let number = unsafe {
            raw::gauge_raw_fir_decimator_new_2(
                taps.as_ptr(),
                taps.len() as u64,
                factor as u64,
                &mut state.taps,
                &mut state.tap_count,
                &mut state.factor,
                &mut state.delay,
                &mut state.wait,
            )
        };
        answered(number, state)
    }

    /// Makes the state what its opening made it.
    ///
    /// Refused: `State`.
    pub fn reset(&mut self) -> Result<(), Refusal> {
        // SAFETY: the fields are borrowed for this call alone.
        let number = unsafe {
            raw::gauge_raw_fir_decimator_reset(
                &mut self.taps,
                &mut self.tap_count,
                &mut self.factor,
                &mut self.delay,
                &mut self.wait,
            )
        };
        answered(number, ())
    }

    /// Takes one sample, in Q15. The sample that fills the first window makes an output, and every factor-th after it: what
    /// [`polyphase_decimate_q15`](crate::polyphase_decimate_q15) gives for the whole list, and whether it was cut to 16 bits.
    ///
    /// Refused: `State`.
    ///
    /// ```
    /// use gauge_line::{Cut, FirDecimator};
    ///
    /// let mut fir = FirDecimator::new(&[32767, 32767], 2)?;
    /// let outputs = [100, 300, 20_000, 20_000].map(|sample| fir.process_sample(sample));
    /// let inside = Cut { value: 398, cut: false };
    /// let past = Cut { value: 32_767, cut: true };
    /// assert_eq!(outputs, [Ok(None), Ok(Some(inside)), Ok(None), Ok(Some(past))]);
    /// # Ok::<(), gauge_line::Refusal>(())
    /// ```
    #[inline]
    pub fn process_sample(&mut self, sample: i16) -> Result<Option<Cut>, Refusal> {
        let (mut made, mut value, mut cut) = (0, 0, 0);
        // SAFETY: every place is borrowed for this call alone.
        let number = unsafe {
            raw::gauge_raw_fir_decimator_process_sample(
                &mut self.taps,
                &mut self.tap_count,
                &mut self.factor,
                &mut self.delay,
                &mut self.wait,
                sample,
                &mut made,
                &mut value,
                &mut cut,
            )
        };
        let output = Cut {
            value,
            cut: cut > 0,
        };
        answered(number, (made > 0).then_some(output))
    }
}

#[cfg(test)]
mod tests {
    use super::*;

    #[test]
    fn each_field_is_what_its_name_says() {
        let state = FirDecimator::new(&[11, 12], 7).unwrap();
        assert_eq!((state.tap_count, state.factor, state.wait), (2, 7, 2));
        assert_eq!(state.taps[..3], [11, 12, 0]);
        assert_eq!(state.delay, [0; MOST_TAPS]);
    }

    #[test]
    fn a_reset_is_a_fresh_opening() {
        let mut state = FirDecimator::new(&[11, 12], 7).unwrap();
        let fresh = state.clone();
        state.process_sample(5).unwrap();
        assert_ne!(state, fresh);
        state.reset().unwrap();
        assert_eq!(state, fresh);
    }

    #[test]
    fn no_taps_are_refused() {
        assert_eq!(FirDecimator::new(&[], 1), Err(Refusal::Taps));
        assert_eq!(FirDecimator::new(&[], 0), Err(Refusal::FirFactor));
    }

    #[test]
    fn zeros_are_refused() {
        let mut state = FirDecimator::new(&[11], 1).unwrap();
        (state.taps, state.tap_count) = ([0; MOST_TAPS], 0);
        (state.factor, state.wait) = (0, 0);
        assert_eq!(state.process_sample(5), Err(Refusal::State));
        assert_eq!(state.reset(), Err(Refusal::State));
    }

    #[test]
    fn a_damaged_state_is_refused_and_stays() {
        let mut state = FirDecimator::new(&[11, 12], 7).unwrap();
        state.wait = 8;
        let damaged = state.clone();
        assert_eq!(state.process_sample(5), Err(Refusal::State));
        assert_eq!(state.reset(), Err(Refusal::State));
        assert_eq!(state, damaged);
    }
}
