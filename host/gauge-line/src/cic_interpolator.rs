//! The CIC interpolator.

use crate::limits::MOST_STAGES;
use crate::moved::Moved;
use crate::raw;
use crate::refusal::{Refusal, answered};

/// A cascade of combs and integrators that makes r samples of each, every sum modulo 2^32.
#[derive(Clone, Debug, PartialEq, Eq)]
pub struct CicInterpolator {
    stages: u64,
    r: u64,
    combs: [i32; MOST_STAGES],
    integrators: [i32; MOST_STAGES],
}

impl CicInterpolator {
    /// Opens an interpolator of 1 to 8 stages by a factor `r` of 1 to 4,096.
    ///
    /// Refused: `Stages`, `Factor`.
    pub fn new(stages: usize, r: usize) -> Result<CicInterpolator, Refusal> {
        let mut state = CicInterpolator {
            stages: 0,
            r: 0,
            combs: [0; MOST_STAGES],
            integrators: [0; MOST_STAGES],
        };
        // SAFETY: the fields are this function's own.
        let number = unsafe {
            raw::gauge_raw_cic_interpolator_new(
                stages as u64,
                r as u64,
                &mut state.stages,
                &mut state.r,
                &mut state.combs,
                &mut state.integrators,
            )
        };
        answered(number, state)
    }

    /// r^(stages − 1), held at 2^64 − 1.
    ///
    /// Refused: `State`.
    pub fn gain(&self) -> Result<u64, Refusal> {
        let mut gain = 0;
        // SAFETY: every place is borrowed for this call alone.
        let number = unsafe {
            raw::gauge_raw_cic_interpolator_gain(
                self.stages,
                self.r,
                &self.combs,
                &self.integrators,
                &mut gain,
            )
        };
        answered(number, gain)
    }

    /// The least g with 2^g not below the gain.
    ///
    /// Refused: `State`.
    ///
    /// ```
    /// let cic = gauge_line::CicInterpolator::new(3, 5)?;
    /// assert_eq!((cic.gain()?, cic.gain_bits()?), (25, 5));
    /// # Ok::<(), gauge_line::Refusal>(())
    /// ```
    pub fn gain_bits(&self) -> Result<u32, Refusal> {
        let mut bits = 0;
        // SAFETY: every place is borrowed for this call alone.
        let number = unsafe {
            raw::gauge_raw_cic_interpolator_gain_bits(
                self.stages,
                self.r,
                &self.combs,
                &self.integrators,
                &mut bits,
            )
        };
        answered(number, bits)
    }

    /// Takes one sample and writes r outputs to the front of `out_buf`: the moving sums of length r, taken `stages` times over, modulo 2^32, of the samples each followed by
    /// r − 1 zeros. Answers r.
    ///
    /// Refused: `State`, then `Span` where out_buf is shorter than r.
    ///
    /// ```
    /// let mut cic = gauge_line::CicInterpolator::new(2, 2)?;
    /// let mut out = [0; 3];
    /// assert_eq!(cic.process_sample(3, &mut out)?, 2);
    /// assert_eq!(out, [3, 6, 0]);
    /// # Ok::<(), gauge_line::Refusal>(())
    /// ```
    #[inline]
    pub fn process_sample(&mut self, input: i32, out_buf: &mut [i32]) -> Result<usize, Refusal> {
        let mut written = 0;
        // SAFETY: the pointer is lent with the length of its own slice, and the fields are borrowed for this call alone.
        let number = unsafe {
            raw::gauge_raw_cic_interpolator_process_sample(
                &mut self.stages,
                &mut self.r,
                &mut self.combs,
                &mut self.integrators,
                input,
                out_buf.as_mut_ptr(),
                out_buf.len() as u64,
                &mut written,
            )
        };
        answered(number, written as usize)
    }

    /// Takes samples from the front of `src`, as many as `dst` has r places for, and writes r outputs of each to the front of dst. Both may be of any length.
    ///
    /// Refused: `State`, then `Span` where dst is shorter than r.
    ///
    /// ```
    /// use gauge_line::{CicInterpolator, Moved};
    ///
    /// let mut cic = CicInterpolator::new(2, 2)?;
    /// let mut out = [0; 5];
    /// assert_eq!(cic.process_block(&[3, 3, 3], &mut out)?, Moved { taken: 2, written: 4 });
    /// assert_eq!(out, [3, 6, 6, 6, 0]);
    /// # Ok::<(), gauge_line::Refusal>(())
    /// ```
    #[inline]
    pub fn process_block(&mut self, src: &[i32], dst: &mut [i32]) -> Result<Moved, Refusal> {
        let (mut taken, mut written) = (0, 0);
        // SAFETY: each pointer is lent with the length of its own slice, and the fields are borrowed for this call alone.
        let number = unsafe {
            raw::gauge_raw_cic_interpolator_process_block(
                &mut self.stages,
                &mut self.r,
                &mut self.combs,
                &mut self.integrators,
                src.as_ptr(),
                src.len() as u64,
                dst.as_mut_ptr(),
                dst.len() as u64,
                &mut taken,
                &mut written,
            )
        };
        answered(number, Moved::from_counts(taken, written))
    }
}

#[cfg(test)]
mod tests {
    use super::*;

    #[test]
    fn each_field_is_what_its_name_says() {
        let mut state = CicInterpolator::new(1, 3).unwrap();
        state.process_sample(9, &mut [0; 3]).unwrap();
        state.process_sample(2, &mut [0; 3]).unwrap();
        assert_eq!((state.stages, state.r), (1, 3));
        assert_eq!((state.combs[0], state.integrators[0]), (2, 2));
    }

    #[test]
    fn a_short_span_is_refused_and_nothing_changes() {
        let mut state = CicInterpolator::new(1, 3).unwrap();
        let before = state.clone();
        let mut out = [7; 2];
        assert_eq!(state.process_sample(9, &mut out), Err(Refusal::Span));
        assert_eq!(state.process_block(&[9], &mut out), Err(Refusal::Span));
        assert_eq!((state, out), (before, [7; 2]));
    }

    #[test]
    fn a_block_is_its_samples_one_by_one() {
        let mut state = CicInterpolator::new(3, 4).unwrap();
        let mut by_sample = state.clone();
        let (samples, mut out) = ([9, -2, i32::MAX, i32::MIN, 5], [7; 18]);
        let moved = state.process_block(&samples, &mut out).unwrap();
        assert_eq!((moved.taken, moved.written), (4, 16));
        for (&sample, made) in samples.iter().zip(out.chunks_exact(4)) {
            let mut wanted = [0; 4];
            by_sample.process_sample(sample, &mut wanted).unwrap();
            assert_eq!(made, wanted);
        }
        assert_eq!((&state, &out[16..]), (&by_sample, &[7; 2][..]));
    }

    #[test]
    fn a_damaged_state_is_refused() {
        let mut state = CicInterpolator::new(1, 3).unwrap();
        state.r = 0;
        assert_eq!(state.gain(), Err(Refusal::State));
        assert_eq!(state.gain_bits(), Err(Refusal::State));
        assert_eq!(state.process_sample(9, &mut [0; 3]), Err(Refusal::State));
        assert_eq!(state.process_block(&[9], &mut [0; 3]), Err(Refusal::State));
    }
}
