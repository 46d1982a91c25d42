//! The CIC decimator's sums without integrators.

use crate::limits::MOST_NEIGHBOURS;
use crate::moved::Moved;
use crate::raw;
use crate::refusal::{Refusal, answered};

/// Sums of neighbours, which thin i32 samples by a factor r that is a power of two: from an opening on, sample after sample, the sums of a
/// [`CicDecimator`](crate::CicDecimator) with the same settings, every wrapped one included. No state grows: after `stages` × (r − 1) samples nothing is left of an old one.
#[derive(Clone, Debug, PartialEq, Eq)]
pub struct NonrecursiveDecimator {
    stages: u64,
    r: u64,
    neighbours: [i32; MOST_NEIGHBOURS],
    place: u64,
}

// A function of the archive that changes the state: its fields in the order in which they cross, then what stands behind.
macro_rules! on_decimator {
    ($function:ident, $state:expr, [$($after:expr),*]) => {
        raw::$function(
            &mut $state.stages,
            &mut $state.r,
            &mut $state.neighbours,
            &mut $state.place,
            $($after,)*
        )
    };
}

impl NonrecursiveDecimator {
    /// Opens a decimator of 1 to 8 stages by a factor `r` of 1 to 4,096 that is a power of two.
    ///
    /// Refused: `Stages`, `Factor`, `PowerOfTwo`.
    ///
    /// ```
    /// use gauge_line::{NonrecursiveDecimator, Refusal};
    ///
    /// assert_eq!(NonrecursiveDecimator::new(3, 48), Err(Refusal::PowerOfTwo));
    /// assert_eq!(NonrecursiveDecimator::new(3, 4097), Err(Refusal::Factor));
    /// ```
    pub fn new(stages: usize, r: usize) -> Result<NonrecursiveDecimator, Refusal> {
        let mut state = NonrecursiveDecimator {
            stages: 0,
            r: 0,
            neighbours: [0; MOST_NEIGHBOURS],
            place: 0,
        };
        // SAFETY: the fields are this function's own.
        let number = unsafe {
            raw::gauge_raw_nonrecursive_decimator_new(
                stages as u64,
                r as u64,
                &mut state.stages,
                &mut state.r,
                &mut state.neighbours,
                &mut state.place,
            )
        };
        answered(number, state)
    }

    /// r^stages, held at 2^64 − 1.
    ///
    /// Refused: `State`.
    pub fn gain(&self) -> Result<u64, Refusal> {
        let mut gain = 0;
        // SAFETY: every place is borrowed for this call alone.
        let number = unsafe {
            raw::gauge_raw_nonrecursive_decimator_gain(
                self.stages,
                self.r,
                &self.neighbours,
                self.place,
                &mut gain,
            )
        };
        answered(number, gain)
    }

    /// The least g with 2^g not below the gain.
    ///
    /// Refused: `State`.
    pub fn gain_bits(&self) -> Result<u32, Refusal> {
        let mut bits = 0;
        // SAFETY: every place is borrowed for this call alone.
        let number = unsafe {
            raw::gauge_raw_nonrecursive_decimator_gain_bits(
                self.stages,
                self.r,
                &self.neighbours,
                self.place,
                &mut bits,
            )
        };
        answered(number, bits)
    }

    /// Takes one sample. Every r-th makes a sum: that of [`CicDecimator::process_sample`](crate::CicDecimator::process_sample).
    ///
    /// Refused: `State`.
    ///
    /// ```
    /// let mut neighbours = gauge_line::NonrecursiveDecimator::new(1, 2)?;
    /// assert_eq!(neighbours.process_sample(i32::MAX)?, None);
    /// assert_eq!(neighbours.process_sample(1)?, Some(i32::MIN));
    /// # Ok::<(), gauge_line::Refusal>(())
    /// ```
    #[inline]
    pub fn process_sample(&mut self, input: i32) -> Result<Option<i32>, Refusal> {
        let (mut made, mut sum) = (0, 0);
        // SAFETY: every place is borrowed for this call alone.
        let number = unsafe {
            on_decimator!(
                gauge_raw_nonrecursive_decimator_process_sample,
                self,
                [input, &mut made, &mut sum]
            )
        };
        answered(number, (made > 0).then_some(sum))
    }

    /// As [`process_sample`](Self::process_sample), the sum divided by 2 to the gain bits and rounded down.
    ///
    /// Refused: `State`, then `GainBits` where they are over 31.
    #[inline]
    pub fn process_sample_scaled(&mut self, input: i32) -> Result<Option<i32>, Refusal> {
        let (mut made, mut sum) = (0, 0);
        // SAFETY: every place is borrowed for this call alone.
        let number = unsafe {
            on_decimator!(
                gauge_raw_nonrecursive_decimator_process_sample_scaled,
                self,
                [input, &mut made, &mut sum]
            )
        };
        answered(number, (made > 0).then_some(sum))
    }

    /// Takes samples from the front of `src` while `dst` has a place, and writes their sums to the front of dst. Both may be of any length.
    ///
    /// Refused: `State`.
    ///
    /// ```
    /// use gauge_line::{Moved, NonrecursiveDecimator};
    ///
    /// let mut neighbours = NonrecursiveDecimator::new(1, 4)?;
    /// let mut sums = [0; 3];
    /// assert_eq!(neighbours.process_block(&[1, 2, 3, 4, 5, 6, 7, 8], &mut sums)?, Moved { taken: 8, written: 2 });
    /// assert_eq!(sums, [10, 26, 0]);
    /// # Ok::<(), gauge_line::Refusal>(())
    /// ```
    #[inline]
    pub fn process_block(&mut self, src: &[i32], dst: &mut [i32]) -> Result<Moved, Refusal> {
        let (mut taken, mut written) = (0, 0);
        // SAFETY: each pointer is lent with the length of its own slice, and the fields are borrowed for this call alone.
        let number = unsafe {
            on_decimator!(
                gauge_raw_nonrecursive_decimator_process_block,
                self,
                [
                    src.as_ptr(),
                    src.len() as u64,
                    dst.as_mut_ptr(),
                    dst.len() as u64,
                    &mut taken,
                    &mut written
                ]
            )
        };
        answered(number, Moved::from_counts(taken, written))
    }
}

#[cfg(test)]
mod tests {
    use super::*;
    use crate::CicDecimator;

    #[test]
    fn each_field_is_what_its_name_says() {
        let mut state = NonrecursiveDecimator::new(2, 4).unwrap();
        state.process_sample(9).unwrap();
        state.process_sample(5).unwrap();
        assert_eq!((state.stages, state.r, state.place), (2, 4, 2));
        assert_eq!(state.neighbours[..5], [5, 14, 23, 23, 0]);
    }

    #[test]
    fn a_damaged_state_is_refused_and_stays() {
        let mut state = NonrecursiveDecimator::new(1, 2).unwrap();
        state.place = 2;
        let damaged = state.clone();
        assert_eq!(state.gain(), Err(Refusal::State));
        assert_eq!(state.gain_bits(), Err(Refusal::State));
        assert_eq!(state.process_sample(1), Err(Refusal::State));
        assert_eq!(state.process_sample_scaled(1), Err(Refusal::State));
        assert_eq!(state, damaged);
        state.place = 0;
        state.r = 3;
        assert_eq!(state.process_sample(1), Err(Refusal::State));
    }

    #[test]
    fn sums_of_too_many_bits_are_not_scaled() {
        let mut state = NonrecursiveDecimator::new(8, 16).unwrap();
        assert_eq!((state.gain(), state.gain_bits()), (Ok(1 << 32), Ok(32)));
        assert_eq!(state.process_sample_scaled(1), Err(Refusal::GainBits));
        assert_eq!(state.process_sample(1), Ok(None));
    }

    // Samples that make every sum wrap.
    #[test]
    fn each_answer_is_the_cic_decimators() {
        for stages in 1..=8 {
            for r in [1, 2, 4, 16] {
                let mut cic = CicDecimator::new(stages, r).unwrap();
                let mut neighbours = NonrecursiveDecimator::new(stages, r).unwrap();
                let mut sample = 1i32;
                for _ in 0..200 {
                    sample = sample.wrapping_mul(1_664_525).wrapping_add(1_013_904_223);
                    let sum = cic.process_sample(sample);
                    assert_eq!(neighbours.process_sample(sample), sum, "{stages} {r}");
                }
            }
        }
    }
}
