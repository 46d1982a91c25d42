//! The CIC decimator.

use crate::limits::MOST_STAGES;
use crate::moved::Moved;
use crate::raw;
use crate::refusal::{Refusal, answered};
use core::ops::RangeInclusive;

/// A cascade of integrators and combs that thins i32 samples by a factor r, every sum modulo 2^32.
#[derive(Clone, Debug, PartialEq, Eq)]
pub struct CicDecimator {
    stages: u64,
    r: u64,
    integrators: [i32; MOST_STAGES],
    combs: [i32; MOST_STAGES],
    sample_counter: u64,
}

// A function of the archive that changes the state: its fields in the order in which they cross, then what stands behind.
macro_rules! on_decimator {
    ($function:ident, $state:expr, [$($after:expr),*]) => {
        raw::$function(
            &mut $state.stages,
            &mut $state.r,
            &mut $state.integrators,
            &mut $state.combs,
            &mut $state.sample_counter,
            $($after,)*
        )
    };
}

impl CicDecimator {
    /// Opens a decimator of 1 to 8 stages by a factor `r` of 1 to 4,096.
    ///
    /// Refused: `Stages`, `Factor`.
    pub fn new(stages: usize, r: usize) -> Result<CicDecimator, Refusal> {
        let mut state = CicDecimator {
            stages: 0,
            r: 0,
            integrators: [0; MOST_STAGES],
            combs: [0; MOST_STAGES],
            sample_counter: 0,
        };
        // SAFETY: the fields are this function's own.
        let number = unsafe {
            raw::gauge_raw_cic_decimator_new(
                stages as u64,
                r as u64,
                &mut state.stages,
                &mut state.r,
                &mut state.integrators,
                &mut state.combs,
                &mut state.sample_counter,
            )
        };
        answered(number, state)
    }

    /// r^stages, held at 2^64 − 1.
    ///
    /// Refused: `State`.
    pub fn gain(&self) -> Result<u64, Refusal> {
        let mut gain = 0;
        // SAFETY: every place is borrowed for this call alone.
        let number = unsafe {
            raw::gauge_raw_cic_decimator_gain(
                self.stages,
                self.r,
                &self.integrators,
                &self.combs,
                self.sample_counter,
                &mut gain,
            )
        };
        answered(number, gain)
    }

    /// The least g with 2^g not below the gain.
    ///
    /// Refused: `State`.
    ///
    /// ```
    /// let cic = gauge_line::CicDecimator::new(3, 5)?;
    /// assert_eq!((cic.gain()?, cic.gain_bits()?), (125, 7));
    /// # Ok::<(), gauge_line::Refusal>(())
    /// ```
    pub fn gain_bits(&self) -> Result<u32, Refusal> {
        let mut bits = 0;
        // SAFETY: every place is borrowed for this call alone.
        let number = unsafe {
            raw::gauge_raw_cic_decimator_gain_bits(
                self.stages,
                self.r,
                &self.integrators,
                &self.combs,
                self.sample_counter,
                &mut bits,
            )
        };
        answered(number, bits)
    }

    /// The samples of which every sum is exact: −2^(31−g) to 2^(31−g) − 1 with g gain bits. From an opening on, sums of such samples are the moving sums themselves,
    /// with no modulus, and scaled ones are rounded down from those.
    ///
    /// Refused: `State`, then `GainBits` where they are over 31.
    ///
    /// ```
    /// let cic = gauge_line::CicDecimator::new(3, 64)?;
    /// assert_eq!(cic.exact_range()?, -8192..=8191);
    /// # Ok::<(), gauge_line::Refusal>(())
    /// ```
    pub fn exact_range(&self) -> Result<RangeInclusive<i32>, Refusal> {
        let (mut least, mut greatest) = (0, 0);
        // SAFETY: every place is borrowed for this call alone.
        let number = unsafe {
            raw::gauge_raw_cic_decimator_exact_range(
                self.stages,
                self.r,
                &self.integrators,
                &self.combs,
                self.sample_counter,
                &mut least,
                &mut greatest,
            )
        };
        answered(number, least..=greatest)
    }

    /// Takes one sample. Every r-th makes a sum: the moving sum of the last r samples, taken `stages` times over, modulo 2^32.
    ///
    /// Refused: `State`.
    ///
    /// ```
    /// let mut cic = gauge_line::CicDecimator::new(1, 2)?;
    /// assert_eq!(cic.process_sample(i32::MAX)?, None);
    /// assert_eq!(cic.process_sample(1)?, Some(i32::MIN));
    /// # Ok::<(), gauge_line::Refusal>(())
    /// ```
    #[inline]
    pub fn process_sample(&mut self, input: i32) -> Result<Option<i32>, Refusal> {
        let (mut made, mut sum) = (0, 0);
        // SAFETY: every place is borrowed for this call alone.
        let number = unsafe {
            on_decimator!(
                gauge_raw_cic_decimator_process_sample,
                self,
                [input, &mut made, &mut sum]
            )
        };
        answered(number, (made > 0).then_some(sum))
    }

    /// As [`process_sample`](Self::process_sample), the sum divided by 2 to the gain bits and rounded down.
    ///
    /// Refused: `State`, then `GainBits` where they are over 31.
    ///
    /// ```
    /// let mut cic = gauge_line::CicDecimator::new(1, 2)?;
    /// assert_eq!(cic.process_sample_scaled(-1)?, None);
    /// assert_eq!(cic.process_sample_scaled(0)?, Some(-1));
    /// # Ok::<(), gauge_line::Refusal>(())
    /// ```
    #[inline]
    pub fn process_sample_scaled(&mut self, input: i32) -> Result<Option<i32>, Refusal> {
        let (mut made, mut sum) = (0, 0);
        // SAFETY: every place is borrowed for this call alone.
        let number = unsafe {
            on_decimator!(
                gauge_raw_cic_decimator_process_sample_scaled,
                self,
                [input, &mut made, &mut sum]
            )
        };
        answered(number, (made > 0).then_some(sum))
    }

    /// Takes samples from the front of `src` while `dst` has a place, and writes their sums to the front of dst. Both may be of any length.
    ///
    /// Refused: `State`.
    ///
    /// ```
    /// use gauge_line::{CicDecimator, Moved};
    ///
    /// let mut cic = CicDecimator::new(1, 4)?;
    /// let mut sums = [0; 3];
    /// assert_eq!(cic.process_block(&[1, 2, 3, 4, 5, 6, 7, 8], &mut sums)?, Moved { taken: 8, written: 2 });
    /// assert_eq!(sums, [10, 26, 0]);
    /// # Ok::<(), gauge_line::Refusal>(())
    /// ```
    #[inline]
    pub fn process_block(&mut self, src: &[i32], dst: &mut [i32]) -> Result<Moved, Refusal> {
        let (mut taken, mut written) = (0, 0);
        // SAFETY: each pointer is lent with the length of its own slice, and the fields are borrowed for this call alone.
        let number = unsafe {
            on_decimator!(
                gauge_raw_cic_decimator_process_block,
                self,
                [
                    src.as_ptr(),
                    src.len() as u64,
                    dst.as_mut_ptr(),
                    dst.len() as u64,
                    &mut taken,
                    &mut written
                ]
            )
        };
        answered(number, Moved::from_counts(taken, written))
    }
}

#[cfg(test)]
mod tests {
    use super::*;

    #[test]
    fn each_field_is_what_its_name_says() {
        let mut state = CicDecimator::new(3, 5).unwrap();
        state.process_sample(9).unwrap();
        assert_eq!((state.stages, state.r, state.sample_counter), (3, 5, 1));
        assert_eq!((state.integrators[0], state.combs[0]), (9, 0));
    }

    #[test]
    fn a_damaged_state_is_refused_and_stays() {
        let mut state = CicDecimator::new(1, 2).unwrap();
        state.sample_counter = 2;
        let damaged = state.clone();
        assert_eq!(state.gain(), Err(Refusal::State));
        assert_eq!(state.gain_bits(), Err(Refusal::State));
        assert_eq!(state.exact_range(), Err(Refusal::State));
        assert_eq!(state.process_sample(1), Err(Refusal::State));
        assert_eq!(state.process_block(&[1], &mut [0; 1]), Err(Refusal::State));
        assert_eq!(state, damaged);
    }

    #[test]
    fn sums_of_too_many_bits_are_not_scaled() {
        let mut state = CicDecimator::new(8, 15).unwrap();
        assert_eq!(state.process_sample_scaled(1), Err(Refusal::GainBits));
        assert_eq!(state.exact_range(), Err(Refusal::GainBits));
        assert_eq!(state.process_sample(1), Ok(None));
    }
}
