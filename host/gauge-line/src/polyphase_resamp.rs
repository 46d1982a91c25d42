//! The polyphase resampler.

use crate::limits::{MOST_PHASE_TAPS, MOST_PROTOTYPE};
use crate::moved::Moved;
use crate::raw;
use crate::refusal::{Refusal, answered};

/// A polyphase resampler on f32, `step` input samples for each output, with linear interpolation between neighbouring phases.
///
/// The prototype: tap t of phase p stands at t × phases + p, and tap t meets the t-th sample before the newest. An output mu after the newest sample reads phase (1 − mu) × phases,
/// so a later output reads a lower phase. A filter h as design programs give it, for `phases` times the input rate, is therefore laid with each row reversed:
///
/// ```text
/// prototype[t * phases + p] = h[(t + 1) * phases - p]        0 where h has no such place; h[0] is not used
///
///          p = 0    1        2        ..   phases - 1
/// t = 0    h[P]     h[P-1]   h[P-2]   ..   h[1]              P: phases
/// t = 1    h[2P]    h[2P-1]  h[2P-2]  ..   h[P+1]
/// ```
///
/// Laid in its own order, h makes levels that jump. Phases wrap, as in the Rust original: an output with mu below 1 / phases is drawn between the last phase and phase 0 of the same
/// samples, and one at mu = 0 is drawn on from phases 0 and 1. Of [`from_taps_straight`](Self::from_taps_straight) all this does not hold: see [`Phase`](crate::Phase).
#[derive(Clone, Debug, PartialEq)]
pub struct PolyphaseResampF32 {
    phases: u64,
    taps: u64,
    straight: u64,
    mu: f32,
    step: f32,
    delay: [f32; MOST_PHASE_TAPS],
    prototype: [f32; MOST_PROTOTYPE],
}

// A function of the archive on a resampler: what stands before its fields, the fields in the order in which they cross, what stands behind.
macro_rules! on_resampler {
    ($function:ident, [$($before:expr),*], $state:expr, [$($after:expr),*]) => {
        raw::$function(
            $($before,)*
            &mut $state.phases,
            &mut $state.taps,
            &mut $state.straight,
            &mut $state.mu,
            &mut $state.step,
            &mut $state.delay,
            &mut $state.prototype,
            $($after,)*
        )
    };
}

const ZEROS: PolyphaseResampF32 = PolyphaseResampF32 {
    phases: 0,
    taps: 0,
    straight: 0,
    mu: 0.0,
    step: 0.0,
    delay: [0.0; MOST_PHASE_TAPS],
    prototype: [0.0; MOST_PROTOTYPE],
};

impl PolyphaseResampF32 {
    /// Opens a resampler of 2 to 64 phases of 1 to 16 taps, with any finite step above zero, in wrapped phase. The prototype is laid as above and copied.
    ///
    /// Refused: `Phases`, `Prototype`, `Step`.
    pub fn from_taps(
        phases: usize,
        taps: usize,
        prototype: &[f32],
        step: f32,
    ) -> Result<PolyphaseResampF32, Refusal> {
        let mut state = ZEROS;
        // SAFETY: the pointer is lent with the length of its own slice, and the fields are this function's own.
        let number = unsafe {
            on_resampler!(
                gauge_raw_polyphase_resamp_from_taps,
                [
                    phases as u64,
                    taps as u64,
                    prototype.as_ptr(),
                    prototype.len() as u64,
                    step
                ],
                state,
                []
            )
        };
        answered(number, state)
    }

    /// Opens a resampler in straight phase: [`Phase::Straight`](crate::Phase::Straight) says how it reads the prototype.
    ///
    /// Refused: `Phases`, `Prototype`, `Step`.
    ///
    /// ```
    /// use gauge_line::PolyphaseResampF32;
    ///
    /// // At step 1 every level falls on a value. A prototype in natural order, its middle at place 2.
    /// let prototype = [0.0, 0.25, 1.0, 0.25];
    /// let mut straight = PolyphaseResampF32::from_taps_straight(2, 2, &prototype, 1.0)?;
    /// let mut wrapped = PolyphaseResampF32::from_taps(2, 2, &prototype, 1.0)?;
    /// let mut out = [0.0; 3];
    /// straight.process_block(&[1.0, 1.0, 0.5], &mut out)?;
    /// assert_eq!(out, [1.0, 1.0, 0.5]);
    /// wrapped.process_block(&[1.0, 1.0, 0.5], &mut out)?;
    /// assert_eq!(out.map(f32::to_bits), [0.5f32, 0.0, -0.25].map(f32::to_bits));
    /// # Ok::<(), gauge_line::Refusal>(())
    /// ```
    pub fn from_taps_straight(
        phases: usize,
        taps: usize,
        prototype: &[f32],
        step: f32,
    ) -> Result<PolyphaseResampF32, Refusal> {
        let mut state = ZEROS;
        // SAFETY: the pointer is lent with the length of its own slice, and the fields are this function's own.
        let number = unsafe {
            on_resampler!(
                gauge_raw_polyphase_resamp_from_taps_straight,
                [
                    phases as u64,
                    taps as u64,
                    prototype.as_ptr(),
                    prototype.len() as u64,
                    step
                ],
                state,
                []
            )
        };
        answered(number, state)
    }

    /// Makes the state what its opening made it.
    ///
    /// Refused: `State`.
    pub fn reset(&mut self) -> Result<(), Refusal> {
        // SAFETY: the fields are borrowed for this call alone.
        let number = unsafe { on_resampler!(gauge_raw_polyphase_resamp_reset, [], self, []) };
        answered(number, ())
    }

    /// While `dst` has a place: writes an output that is due, else consumes the next sample of `src`, else stops. Continue behind the samples taken; no output is lost or
    /// made twice. Both may be of any length.
    ///
    /// Refused: `State`.
    ///
    /// ```
    /// use gauge_line::{Moved, PolyphaseResampF32};
    ///
    /// let mut resampler = PolyphaseResampF32::from_taps(2, 1, &[1.0, 0.0], 0.5)?;
    /// let mut out = [0.0];
    /// assert_eq!(resampler.process_block(&[0.5, 0.0], &mut out)?, Moved { taken: 1, written: 1 });
    /// assert_eq!(out, [-0.5]);
    /// # Ok::<(), gauge_line::Refusal>(())
    /// ```
    #[inline]
    pub fn process_block(&mut self, src: &[f32], dst: &mut [f32]) -> Result<Moved, Refusal> {
        let (mut taken, mut written) = (0, 0);
        // SAFETY: each pointer is lent with the length of its own slice, and the fields are borrowed for this call alone.
        let number = unsafe {
            on_resampler!(
                gauge_raw_polyphase_resamp_process_block,
                [],
                self,
                [
                    src.as_ptr(),
                    src.len() as u64,
                    dst.as_mut_ptr(),
                    dst.len() as u64,
                    &mut taken,
                    &mut written
                ]
            )
        };
        answered(number, Moved::from_counts(taken, written))
    }

    /// Consumes `x` whatever is due, then writes what is due while `out` has a place, and answers the outputs written. Outputs still due after a full span are skipped by the
    /// next push, so a stream goes through [`process_block`](Self::process_block).
    ///
    /// Refused: `State`.
    ///
    /// ```
    /// let mut resampler = gauge_line::PolyphaseResampF32::from_taps(2, 1, &[1.0, 0.0], 0.5)?;
    /// let mut out = [0.0; 3];
    /// assert_eq!(resampler.push(0.5, &mut out)?, 2);
    /// assert_eq!(out.map(f32::to_bits), [-0.5f32, 0.0, 0.0].map(f32::to_bits));
    /// # Ok::<(), gauge_line::Refusal>(())
    /// ```
    #[inline]
    pub fn push(&mut self, x: f32, out: &mut [f32]) -> Result<usize, Refusal> {
        let mut written = 0;
        // SAFETY: the pointer is lent with the length of its own slice, and the fields are borrowed for this call alone.
        let number = unsafe {
            on_resampler!(
                gauge_raw_polyphase_resamp_push,
                [],
                self,
                [x, out.as_mut_ptr(), out.len() as u64, &mut written]
            )
        };
        answered(number, written as usize)
    }
}

#[cfg(test)]
mod tests {
    use super::*;

    fn opened() -> PolyphaseResampF32 {
        PolyphaseResampF32::from_taps(4, 1, &[0.1, 0.2, 0.3, 0.4], 1.5).unwrap()
    }

    #[test]
    fn each_field_is_what_its_name_says() {
        let state = opened();
        assert_eq!((state.phases, state.taps), (4, 1));
        assert_eq!((state.mu, state.step), (1.0, 1.5));
        assert_eq!(state.prototype[..5], [0.1, 0.2, 0.3, 0.4, 0.0]);
    }

    #[test]
    fn a_reset_keeps_the_phase() {
        let straight =
            || PolyphaseResampF32::from_taps_straight(4, 1, &[0.1, 0.2, 0.3, 0.4], 1.5).unwrap();
        assert_eq!((opened().straight, straight().straight), (0, 1));
        let mut state = straight();
        state.push(2.0, &mut []).unwrap();
        state.reset().unwrap();
        assert_eq!(state, straight());
    }

    #[test]
    fn a_reset_is_a_fresh_opening() {
        let mut state = opened();
        state.push(2.0, &mut []).unwrap();
        assert_eq!((state.delay[0], state.mu), (2.0, 0.0));
        state.reset().unwrap();
        assert_eq!(state, opened());
    }

    #[test]
    fn a_damaged_state_is_refused_and_stays() {
        let mut state = opened();
        state.mu = 2.75;
        let damaged = state.clone();
        let mut out = [9.0];
        assert_eq!(state.process_block(&[1.0], &mut out), Err(Refusal::State));
        assert_eq!(state.push(1.0, &mut out), Err(Refusal::State));
        assert_eq!(state.reset(), Err(Refusal::State));
        assert_eq!((state, out), (damaged, [9.0]));
    }
}
