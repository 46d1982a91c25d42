//! Prototypes stored phase by phase.

use crate::raw;
use crate::refusal::{Refusal, answered};

/// A prototype phase by phase, as an editor shows it, one phase a row: what stands at t × phases + p of `prototype` goes to p × taps + t of `rows`. Answers phases × taps;
/// values are moved, and calculated with nowhere. [`prototype_by_tap`] undoes it.
///
/// Refused: `Phases`, then `Prototype`, where either slice is not phases × taps long; `rows` then stays as it was.
///
/// ```
/// use gauge_line::prototype_by_phase;
///
/// // Two taps of three phases.
/// let mut rows = [0.0; 6];
/// assert_eq!(prototype_by_phase(3, 2, &[0.0, 0.1, 0.2, 1.0, 1.1, 1.2], &mut rows)?, 6);
/// assert_eq!(rows, [0.0, 1.0, 0.1, 1.1, 0.2, 1.2]);
/// # Ok::<(), gauge_line::Refusal>(())
/// ```
pub fn prototype_by_phase(
    phases: usize,
    taps: usize,
    prototype: &[f32],
    rows: &mut [f32],
) -> Result<usize, Refusal> {
    rearranged(
        raw::gauge_raw_prototype_by_phase,
        (phases, taps),
        prototype,
        rows,
    )
}

/// And back: what stands at p × taps + t of `rows` goes to t × phases + p of `prototype`, as [`PolyphaseResampF32`](crate::PolyphaseResampF32) and
/// [`Line::open`](crate::Line::open) read it. Answers phases × taps. [`prototype_by_phase`] undoes it.
///
/// Refused: `Phases`, then `Prototype`, where either slice is not phases × taps long; `prototype` then stays as it was.
///
/// ```
/// use gauge_line::prototype_by_tap;
///
/// let mut prototype = [0.0; 6];
/// assert_eq!(prototype_by_tap(3, 2, &[0.0, 1.0, 0.1, 1.1, 0.2, 1.2], &mut prototype)?, 6);
/// assert_eq!(prototype, [0.0, 0.1, 0.2, 1.0, 1.1, 1.2]);
/// # Ok::<(), gauge_line::Refusal>(())
/// ```
pub fn prototype_by_tap(
    phases: usize,
    taps: usize,
    rows: &[f32],
    prototype: &mut [f32],
) -> Result<usize, Refusal> {
    rearranged(
        raw::gauge_raw_prototype_by_tap,
        (phases, taps),
        rows,
        prototype,
    )
}

type Rearrangement =
    unsafe extern "C" fn(u64, u64, *const f32, u64, *mut f32, u64, &mut u64) -> u64;

fn rearranged(
    function: Rearrangement,
    (phases, taps): (usize, usize),
    src: &[f32],
    dst: &mut [f32],
) -> Result<usize, Refusal> {
    let mut written = 0;
    // SAFETY: each pointer is lent with the length of its own slice.
    let number = unsafe {
        function(
            phases as u64,
            taps as u64,
            src.as_ptr(),
            src.len() as u64,
            dst.as_mut_ptr(),
            dst.len() as u64,
            &mut written,
        )
    };
    answered(number, written as usize)
}

#[cfg(test)]
mod tests {
    use super::*;

    #[test]
    fn a_refused_call_leaves_its_span() {
        let values = [1.0; 8];
        let mut span = [9.0; 8];
        for (phases, taps, long, wide, refusal) in [
            (1, 2, 2, 2, Refusal::Phases),
            (2, 17, 2, 2, Refusal::Phases),
            (2, 2, 3, 4, Refusal::Prototype),
            (2, 2, 4, 3, Refusal::Prototype),
            (2, 2, 4, 5, Refusal::Prototype),
        ] {
            let (src, dst) = (&values[..long], &mut span[..wide]);
            assert_eq!(prototype_by_phase(phases, taps, src, dst), Err(refusal));
            assert_eq!(prototype_by_tap(phases, taps, src, dst), Err(refusal));
        }
        assert_eq!(span, [9.0; 8]);
    }
}
