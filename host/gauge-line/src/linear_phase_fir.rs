//! Linear-phase filters at one rate.

use crate::limits::{LINEAR_PHASE_DELAY, MOST_LINEAR_PHASE_TAPS};
use crate::raw;
use crate::refusal::{Refusal, answered};

/// A filter on f32 with M taps that both its halves share; it delays every frequency alike.
///
/// | opening | length | delay in samples | at 0 Hz | at half the rate |
/// |---|---|---|---|---|
/// | [`odd_symmetric`](Self::odd_symmetric) | 2M + 1 | M | 1 + twice the sum of the taps | as the taps make it |
/// | [`even_symmetric`](Self::even_symmetric) | 2M | M − 1/2 | twice the sum of the taps | 0 |
/// | [`odd_antisymmetric`](Self::odd_antisymmetric) | 2M + 1 | M | 0 | 0 |
/// | [`even_antisymmetric`](Self::even_antisymmetric) | 2M | M − 1/2 | 0 | as the taps make it |
///
/// With new the later and old the earlier sample of a pair, an output is, from 0.0, the sum of (new + old) × c\[t\], or of
/// (new − old) × c\[t\] in the antisymmetric kinds, t rising from the outermost pair; `odd_symmetric` adds the centre
/// sample last. Samples before the first are 0. How a stream is cut into blocks and samples shows in no output.
#[derive(Clone, Debug, PartialEq)]
pub struct LinearPhaseFir {
    m: u64,
    odd: u64,
    antisymmetric: u64,
    taps: [f32; MOST_LINEAR_PHASE_TAPS],
    delay: [f32; LINEAR_PHASE_DELAY],
}

/// Calls a function of the archive with the fields, each lent, and what comes after them.
macro_rules! on_filter {
    ($function:ident, $state:expr, [$($after:expr),*]) => {
        raw::$function(
            &mut $state.m,
            &mut $state.odd,
            &mut $state.antisymmetric,
            &mut $state.taps,
            &mut $state.delay,
            $($after),*
        )
    };
}

impl LinearPhaseFir {
    /// Opens a filter of a kind with 1 to 23 taps, one half of it, the outermost first; they are copied.
    ///
    /// Refused: `PhaseTaps`.
    pub fn new(odd: bool, antisymmetric: bool, taps: &[f32]) -> Result<LinearPhaseFir, Refusal> {
        let mut state = LinearPhaseFir {
            m: 0,
            odd: 0,
            antisymmetric: 0,
            taps: [0.0; MOST_LINEAR_PHASE_TAPS],
            delay: [0.0; LINEAR_PHASE_DELAY],
        };
        // SAFETY: the pointer is lent with the length of its own slice, and the fields are this function's own.
        let number = unsafe {
            raw::gauge_raw_linear_phase_fir_new(
                odd.into(),
                antisymmetric.into(),
                taps.as_ptr(),
                taps.len() as u64,
                &mut state.m,
                &mut state.odd,
                &mut state.antisymmetric,
                &mut state.taps,
                &mut state.delay,
            )
        };
        answered(number, state)
    }

    /// Type I: odd length, symmetric, a centre tap of 1.
    ///
    /// Refused: `PhaseTaps`.
    ///
    /// ```
    /// let mut filter = gauge_line::LinearPhaseFir::odd_symmetric(&[0.25])?;
    /// let mut impulse = [1.0, 0.0, 0.0, 0.0];
    /// filter.inplace(&mut impulse)?;
    /// assert_eq!(impulse.map(f32::to_bits), [0.25f32, 1.0, 0.25, 0.0].map(f32::to_bits));
    /// # Ok::<(), gauge_line::Refusal>(())
    /// ```
    pub fn odd_symmetric(taps: &[f32]) -> Result<LinearPhaseFir, Refusal> {
        LinearPhaseFir::new(true, false, taps)
    }

    /// Type II: even length, symmetric.
    ///
    /// Refused: `PhaseTaps`.
    ///
    /// ```
    /// let mut filter = gauge_line::LinearPhaseFir::even_symmetric(&[0.25, 0.5])?;
    /// let mut impulse = [1.0, 0.0, 0.0, 0.0, 0.0];
    /// filter.inplace(&mut impulse)?;
    /// assert_eq!(impulse.map(f32::to_bits), [0.25f32, 0.5, 0.5, 0.25, 0.0].map(f32::to_bits));
    /// # Ok::<(), gauge_line::Refusal>(())
    /// ```
    pub fn even_symmetric(taps: &[f32]) -> Result<LinearPhaseFir, Refusal> {
        LinearPhaseFir::new(false, false, taps)
    }

    /// Type III: odd length, antisymmetric, a centre tap of 0.
    ///
    /// Refused: `PhaseTaps`.
    ///
    /// ```
    /// let mut filter = gauge_line::LinearPhaseFir::odd_antisymmetric(&[0.25])?;
    /// let mut impulse = [1.0, 0.0, 0.0, 0.0];
    /// filter.inplace(&mut impulse)?;
    /// assert_eq!(impulse.map(f32::to_bits), [0.25f32, 0.0, -0.25, 0.0].map(f32::to_bits));
    /// # Ok::<(), gauge_line::Refusal>(())
    /// ```
    pub fn odd_antisymmetric(taps: &[f32]) -> Result<LinearPhaseFir, Refusal> {
        LinearPhaseFir::new(true, true, taps)
    }

    /// Type IV: even length, antisymmetric.
    ///
    /// Refused: `PhaseTaps`.
    ///
    /// ```
    /// let mut filter = gauge_line::LinearPhaseFir::even_antisymmetric(&[0.25, 0.5])?;
    /// let mut impulse = [1.0, 0.0, 0.0, 0.0, 0.0];
    /// filter.inplace(&mut impulse)?;
    /// assert_eq!(impulse.map(f32::to_bits), [0.25f32, 0.5, -0.5, -0.25, 0.0].map(f32::to_bits));
    /// # Ok::<(), gauge_line::Refusal>(())
    /// ```
    pub fn even_antisymmetric(taps: &[f32]) -> Result<LinearPhaseFir, Refusal> {
        LinearPhaseFir::new(false, true, taps)
    }

    /// Makes the state what its opening made it.
    ///
    /// Refused: `State`.
    pub fn reset(&mut self) -> Result<(), Refusal> {
        // SAFETY: the fields are borrowed for this call alone.
        let number = unsafe { on_filter!(gauge_raw_linear_phase_fir_reset, self, []) };
        answered(number, ())
    }

    /// The samples that the filter keeps, one less than its length: 2M, or 2M − 1 where the length is even. The delay is half of it.
    ///
    /// Refused: `State`.
    ///
    /// ```
    /// let filter = gauge_line::LinearPhaseFir::even_symmetric(&[0.25, 0.5])?;
    /// assert_eq!(filter.response_length()?, 3);
    /// # Ok::<(), gauge_line::Refusal>(())
    /// ```
    pub fn response_length(&self) -> Result<usize, Refusal> {
        let mut length = 0;
        // SAFETY: every place is borrowed for this call alone.
        let number = unsafe {
            raw::gauge_raw_linear_phase_fir_response_length(
                self.m,
                self.odd,
                self.antisymmetric,
                &self.taps,
                &self.delay,
                &mut length,
            )
        };
        answered(number, length as usize)
    }

    /// Takes one sample and answers its output.
    ///
    /// Refused: `State`.
    #[inline]
    pub fn process(&mut self, x: f32) -> Result<f32, Refusal> {
        let mut value = 0.0;
        // SAFETY: every place is borrowed for this call alone.
        let number =
            unsafe { on_filter!(gauge_raw_linear_phase_fir_process, self, [x, &mut value]) };
        answered(number, value)
    }

    /// Takes the samples of `src`, writes an output of each to its place of `span`, and answers how many.
    ///
    /// Refused: `State`, then `Lengths` where the two are not of one length.
    ///
    /// ```
    /// use gauge_line::{LinearPhaseFir, Refusal};
    ///
    /// let mut filter = LinearPhaseFir::even_antisymmetric(&[1.0])?;
    /// let mut rise = [0.0; 3];
    /// assert_eq!(filter.block(&[1.0, 3.0, 6.0], &mut rise)?, 3);
    /// assert_eq!(rise, [1.0, 2.0, 3.0]);
    /// assert_eq!(filter.block(&[10.0], &mut rise), Err(Refusal::Lengths));
    /// # Ok::<(), gauge_line::Refusal>(())
    /// ```
    #[inline]
    pub fn block(&mut self, src: &[f32], span: &mut [f32]) -> Result<usize, Refusal> {
        let mut written = 0;
        // SAFETY: each pointer is lent with the length of its own slice, and the fields are borrowed for this call alone.
        let number = unsafe {
            on_filter!(
                gauge_raw_linear_phase_fir_block,
                self,
                [
                    src.as_ptr(),
                    src.len() as u64,
                    span.as_mut_ptr(),
                    span.len() as u64,
                    &mut written
                ]
            )
        };
        answered(number, written as usize)
    }

    /// Takes the samples of `span`, writes an output of each in its place, and answers how many.
    ///
    /// Refused: `State`.
    #[inline]
    pub fn inplace(&mut self, span: &mut [f32]) -> Result<usize, Refusal> {
        let mut written = 0;
        // SAFETY: the pointer is lent with the length of its own slice, and the fields are borrowed for this call alone.
        let number = unsafe {
            on_filter!(
                gauge_raw_linear_phase_fir_inplace,
                self,
                [span.as_mut_ptr(), span.len() as u64, &mut written]
            )
        };
        answered(number, written as usize)
    }
}

#[cfg(test)]
mod tests {
    use super::*;

    #[test]
    fn each_field_is_what_its_name_says() {
        let state = LinearPhaseFir::odd_symmetric(&[0.1, 0.2]).unwrap();
        assert_eq!((state.m, state.odd, state.antisymmetric), (2, 1, 0));
        assert_eq!(state.taps[..3], [0.1, 0.2, 0.0]);
        assert_eq!(state.delay, [0.0; LINEAR_PHASE_DELAY]);
        let state = LinearPhaseFir::even_antisymmetric(&[0.1]).unwrap();
        assert_eq!((state.m, state.odd, state.antisymmetric), (1, 0, 1));
    }

    #[test]
    fn a_reset_is_a_fresh_opening() {
        let mut state = LinearPhaseFir::odd_antisymmetric(&[0.1, 0.2]).unwrap();
        let fresh = state.clone();
        state.process(1.0).unwrap();
        assert_ne!(state, fresh);
        state.reset().unwrap();
        assert_eq!(state, fresh);
    }

    #[test]
    fn cuts_show_in_no_output() {
        let taps: [f32; 23] = core::array::from_fn(|t| 1.0 / (t + 3) as f32);
        let samples: [f32; 300] = core::array::from_fn(|i| (i * i % 97) as f32 - 48.0);
        for (odd, antisymmetric) in [(false, false), (true, false), (false, true), (true, true)] {
            let opened = LinearPhaseFir::new(odd, antisymmetric, &taps).unwrap();
            let (mut whole, mut pieces) = ([0.0; 300], samples);
            opened.clone().block(&samples, &mut whole).unwrap();
            let mut cut = opened.clone();
            let (first, rest) = pieces.split_at_mut(7);
            for sample in first {
                *sample = cut.process(*sample).unwrap();
            }
            for piece in rest.chunks_mut(41) {
                cut.inplace(piece).unwrap();
            }
            assert_eq!(whole, pieces);
        }
    }

    #[test]
    fn a_damaged_state_is_refused() {
        let mut state = LinearPhaseFir::even_symmetric(&[0.1]).unwrap();
        state.m = 24;
        assert_eq!(state.process(1.0), Err(Refusal::State));
        assert_eq!(state.block(&[1.0], &mut [0.0; 2]), Err(Refusal::State));
        assert_eq!(state.inplace(&mut [0.0; 2]), Err(Refusal::State));
        assert_eq!(state.response_length(), Err(Refusal::State));
        assert_eq!(state.reset(), Err(Refusal::State));
    }
}
