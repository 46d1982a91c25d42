//! A feeding plan, tried before a line is opened.

use crate::line::{Phase, Settings, Thinning};
use crate::raw;
use crate::refusal::{Refusal, answered};

/// What each feed of a freshly opened line would take and write, one after the other: call i is lent `pieces[i]` samples and a span of `spans[i]` places, and `taken[i]` and
/// `written[i]` get its counts.
///
/// They are those of [`Line::feed`](crate::Line::feed) for every choice of samples: counts depend on settings and lengths alone. What a call leaves untaken is not carried over: the
/// next is lent exactly its own piece. Nothing is opened, and there may be no calls.
///
/// Refused: those of [`Line::open`](crate::Line::open), then `Plan` where the four lists are not of one length, that length is over 4,096, or a piece or a span is over 65,536. Both
/// lists of counts then stay as they were.
///
/// ```
/// use gauge_line::{Settings, plan};
///
/// // A level for each 32 samples; after five calls of 64 a span of one place has left half of them untaken.
/// let settings = Settings { stages: 2, r: 32, ..Settings::default() };
/// let (mut taken, mut written) = ([0; 5], [0; 5]);
/// plan(settings, &[], &[], &[64; 5], &[1; 5], &mut taken, &mut written)?;
/// assert_eq!((taken, written), ([32; 5], [1; 5]));
/// plan(settings, &[], &[], &[64; 5], &[3; 5], &mut taken, &mut written)?;
/// assert_eq!((taken, written), ([64; 5], [2; 5]));
/// # Ok::<(), gauge_line::Refusal>(())
/// ```
pub fn plan(
    settings: Settings,
    taps: &[i16],
    prototype: &[f32],
    pieces: &[u64],
    spans: &[u64],
    taken: &mut [u64],
    written: &mut [u64],
) -> Result<(), Refusal> {
    // SAFETY: each pointer is lent with the length of its own slice.
    let number = unsafe {
        raw::gauge_raw_plan_3(
            settings.stages as u64,
            settings.r as u64,
            settings.factor as u64,
            settings.depth as u64,
            settings.phases as u64,
            settings.phase_taps as u64,
            u64::from(settings.phase == Phase::Straight),
            settings.step,
            u64::from(settings.thinning == Thinning::Neighbours),
            taps.as_ptr(),
            taps.len() as u64,
            prototype.as_ptr(),
            prototype.len() as u64,
            pieces.as_ptr(),
            pieces.len() as u64,
            spans.as_ptr(),
            spans.len() as u64,
            taken.as_mut_ptr(),
            taken.len() as u64,
            written.as_mut_ptr(),
            written.len() as u64,
        )
    };
    answered(number, ())
}
