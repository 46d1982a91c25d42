//! The gauge line.

use crate::limits::{
    HBF_DEC_DELAYS, MOST_DEPTH, MOST_NEIGHBOURS, MOST_PHASE_TAPS, MOST_PROTOTYPE, MOST_STAGES,
    MOST_TAPS,
};
use crate::moved::Moved;
use crate::raw;
use crate::refusal::{Refusal, answered};

/// What a line is opened with, beside its FIR taps and its prototype. The limits stand in [`limits`](crate::limits). By default each sample makes a level: one stage, every
/// factor 1, no half-band stages, no resampler.
///
/// Range of samples: sums are modulo 2^32 and are divided by 2^g, where g, the gain bits, is the least with 2^g not below r^stages. From samples of −2^(31 − g) to
/// 2^(31 − g) − 1 every sum is exact. Beyond, a steady sample x comes round as soon as x × r^stages leaves i32. Where g is over 16, no sample of the exact range reaches full scale.
///
/// ```
/// use gauge_line::{Line, Settings};
///
/// // 18 gain bits: samples of -8192 to 8191.
/// let settings = Settings { stages: 3, r: 64, ..Settings::default() };
/// for (steady, level) in [(8191, 0.25 - 1.0 / 32768.0), (8192, -0.25), (16384, 0.0)] {
///     let mut line = Line::open(settings, &[], &[])?;
///     let mut out = [0.0; 4];
///     line.feed(&[steady; 4 * 64], &mut out)?;
///     assert_eq!(out[3], level);
/// }
/// # Ok::<(), gauge_line::Refusal>(())
/// ```
#[derive(Clone, Copy, Debug, PartialEq)]
pub struct Settings {
    /// CIC stages, 1 to 8. With r they set the range of samples.
    pub stages: usize,
    /// CIC factor, 1 to 4,096; r^stages is at most 2^31.
    pub r: usize,
    /// FIR factor, 1 to 4,096. Not looked at without FIR taps.
    pub factor: usize,
    /// Half-band stages, 0 (off) to 5; each halves the rate. The crate's page says what each depth holds off.
    pub depth: usize,
    /// Phases of the resampler, 0 (off) or 2 to 64. The next three are not looked at when it is off.
    pub phases: usize,
    /// Taps of each phase, 1 to 16.
    pub phase_taps: usize,
    /// How the resampler reads its prototype.
    pub phase: Phase,
    /// Input samples for each output of the resampler, 1/64 to 64.
    pub step: f32,
    /// What thins by r.
    pub thinning: Thinning,
}

impl Default for Settings {
    fn default() -> Settings {
        Settings {
            stages: 1,
            r: 1,
            factor: 1,
            depth: 0,
            phases: 0,
            phase_taps: 0,
            phase: Phase::Wrapped,
            step: 1.0,
            thinning: Thinning::Integrators,
        }
    }
}

/// What thins by r. Both kinds give the same levels of the same samples, feed after feed, every wrapped sum included.
///
/// ```
/// use gauge_line::{Line, Refusal, Settings, Thinning};
///
/// let settings = Settings { stages: 3, r: 4, ..Settings::default() };
/// let samples: Vec<i32> = (0..64i32).map(|n| n.wrapping_mul(67_108_859)).collect();
/// let levels = |thinning| {
///     let mut out = [0.0; 16];
///     Line::open(Settings { thinning, ..settings }, &[], &[])?.feed(&samples, &mut out)?;
///     Ok::<_, Refusal>(out)
/// };
/// assert_eq!(levels(Thinning::Neighbours)?, levels(Thinning::Integrators)?);
///
/// let sixths = Settings { r: 6, thinning: Thinning::Neighbours, ..settings };
/// assert_eq!(Line::open(sixths, &[], &[]).unwrap_err(), Refusal::PowerOfTwo);
/// # Ok::<(), Refusal>(())
/// ```
#[derive(Clone, Copy, Debug, Default, PartialEq, Eq)]
pub enum Thinning {
    /// The integrators and combs of the CIC decimator, for any r.
    #[default]
    Integrators,
    /// Sums of neighbours, for r a power of two: no state grows, so what was wrong of one sample is gone after stages × r more.
    Neighbours,
}

/// How a resampler of P phases and T taps reads its prototype at the place q = (1 − mu) × P, which is from 0 to P.
///
/// Which layout goes with which: a prototype is laid with each row reversed for wrapped phase ([`PolyphaseResampF32`](crate::PolyphaseResampF32) says how), and in its natural order
/// for straight phase. Of a ramp through a prototype that is straight from value to value, the other pairs make levels that jump, and a prototype laid for wrapped phase may give 0
/// in straight phase. docs/float.md has the figures.
#[derive(Clone, Copy, Debug, Default, PartialEq, Eq)]
pub enum Phase {
    /// As the Rust original: phases p0 = floor(q) modulo P and p1 = (p0 + 1) modulo P of the same samples, and f = q − p0, so that an output on a sample, q = P, is drawn on from
    /// phases 0 and 1 by P times their difference.
    #[default]
    Wrapped,
    /// The places t × P + p and t × P + p + 1 of the prototype as one row, 0 past its P × T taps, with p = floor(q) and f = q − p. A level on a sample, as each is at step 1, reads
    /// one place of each row. Levels between samples read the taps of a row forwards while time goes backwards, so only steps of whole samples are even.
    Straight,
}

/// What one step of the line did.
#[derive(Clone, Copy, Debug, PartialEq)]
pub enum Step {
    /// It took a sample.
    Took,
    /// It wrote a level.
    Wrote(f32),
    /// It took a sample and wrote a level.
    TookAndWrote(f32),
    /// It stopped: no place, or no level due and no sample.
    Stopped,
}

/// A gauge line: cell samples in, float levels out, through a CIC decimator, a 16-bit FIR, a cascade of half-band stages and a polyphase resampler.
///
/// ```
/// use gauge_line::{Line, Moved, Settings};
///
/// // One stage, r = 1, no FIR, no half-band stages, a resampler of two phases and one tap.
/// let settings = Settings { stages: 1, r: 1, factor: 0, depth: 0, phases: 2, phase_taps: 1, step: 0.5, ..Settings::default() };
/// let mut line = Line::open(settings, &[], &[1.0, 0.0])?;
/// let mut out = [0.0];
/// assert_eq!(line.feed(&[16384, 0], &mut out)?, Moved { taken: 1, written: 1 });
/// assert_eq!(out, [-0.5]);
/// # Ok::<(), gauge_line::Refusal>(())
/// ```
#[derive(Clone, Debug, PartialEq)]
pub struct Line {
    stages: u64,
    r: u64,
    integrators: [i32; MOST_STAGES],
    combs: [i32; MOST_STAGES],
    sample_counter: u64,
    taps: [i16; MOST_TAPS],
    tap_count: u64,
    factor: u64,
    fir_delay: [i16; MOST_TAPS],
    wait: u64,
    depth: u64,
    delays: [f32; HBF_DEC_DELAYS],
    held: [f32; MOST_DEPTH],
    counts: [u64; MOST_DEPTH],
    phases: u64,
    phase_taps: u64,
    straight: u64,
    mu: f32,
    step: f32,
    delay: [f32; MOST_PHASE_TAPS],
    prototype: [f32; MOST_PROTOTYPE],
    cuts: u32,
    thinning: u64,
    neighbours: [i32; MOST_NEIGHBOURS],
}

const ZEROS: Line = Line {
    stages: 0,
    r: 0,
    integrators: [0; MOST_STAGES],
    combs: [0; MOST_STAGES],
    sample_counter: 0,
    taps: [0; MOST_TAPS],
    tap_count: 0,
    factor: 0,
    fir_delay: [0; MOST_TAPS],
    wait: 0,
    depth: 0,
    delays: [0.0; HBF_DEC_DELAYS],
    held: [0.0; MOST_DEPTH],
    counts: [0; MOST_DEPTH],
    phases: 0,
    phase_taps: 0,
    straight: 0,
    mu: 0.0,
    step: 0.0,
    delay: [0.0; MOST_PHASE_TAPS],
    prototype: [0.0; MOST_PROTOTYPE],
    cuts: 0,
    thinning: 0,
    neighbours: [0; MOST_NEIGHBOURS],
};

// A function of the archive on a line: what stands before its fields, the fields in the order in which they cross, what stands behind.
macro_rules! on_line {
    ($function:ident, [$($before:expr),*], $line:expr, [$($after:expr),*]) => {
        raw::$function(
            $($before,)*
            &mut $line.stages,
            &mut $line.r,
            &mut $line.integrators,
            &mut $line.combs,
            &mut $line.sample_counter,
            &mut $line.taps,
            &mut $line.tap_count,
            &mut $line.factor,
            &mut $line.fir_delay,
            &mut $line.wait,
            &mut $line.depth,
            &mut $line.delays,
            &mut $line.held,
            &mut $line.counts,
            &mut $line.phases,
            &mut $line.phase_taps,
            &mut $line.straight,
            &mut $line.mu,
            &mut $line.step,
            &mut $line.delay,
            &mut $line.prototype,
            &mut $line.cuts,
            &mut $line.thinning,
            &mut $line.neighbours,
            $($after,)*
        )
    };
}

// Its own parking, over the same macro.
mod parking;

impl Line {
    /// Opens a line. `taps` are the FIR's, in Q15 (32768ths), at most [`MOST_TAPS`]; none turn the FIR off. `prototype` is the resampler's, phases × phase_taps long, tap t of phase p at
    /// t × phases + p: [`PolyphaseResampF32`](crate::PolyphaseResampF32) says how a filter design is laid into it. Both are copied. A part that is off hands its values on.
    ///
    /// Refused: `Stages`, `Factor`, `PowerOfTwo` of neighbours only, `GainBits`, `FirFactor`, `Taps`, `Depth`, `Phases`, `Prototype`, `Step`.
    ///
    /// ```
    /// # use gauge_line::{Line, Refusal, Settings};
    /// let settings = Settings { stages: 8, r: 15, factor: 0, depth: 0, ..Settings::default() };
    /// assert_eq!(Line::open(settings, &[], &[]).unwrap_err(), Refusal::GainBits);
    /// assert!(Line::open(Settings { r: 14, ..settings }, &[], &[]).is_ok());
    /// ```
    pub fn open(settings: Settings, taps: &[i16], prototype: &[f32]) -> Result<Line, Refusal> {
        let mut line = ZEROS;
        // SAFETY: each pointer is lent with the length of its own slice, and the fields are this function's own.
        let number = unsafe {
            on_line!(
                gauge_raw_line_open_3,
                [
                    settings.stages as u64,
                    settings.r as u64,
                    settings.factor as u64,
                    settings.depth as u64,
                    settings.phases as u64,
                    settings.phase_taps as u64,
                    u64::from(settings.phase == Phase::Straight),
                    settings.step,
                    u64::from(settings.thinning == Thinning::Neighbours),
                    taps.as_ptr(),
                    taps.len() as u64,
                    prototype.as_ptr(),
                    prototype.len() as u64
                ],
                line,
                []
            )
        };
        answered(number, line)
    }

    /// Takes samples from the front of those lent and writes levels to the front of `out`, until out is full, or no level is due and no sample is left. Places of out behind
    /// the levels stay as they were. Both may be of any length.
    ///
    /// Over every list of feeds of an opened line: no feed is refused; the levels written so far are the first ones of those that all samples taken so far give when each part
    /// is run over them as one list, however they were cut into feeds; where a place of out stayed unwritten, they are all of them and every sample lent was taken; and after a
    /// feed that filled out and took a sample, the samples taken so far without the last one give fewer levels than were written: no sample is taken before it is needed.
    ///
    /// Refused: `State`.
    ///
    /// ```
    /// # use gauge_line::{Line, Moved, Settings};
    /// // The sum of each two samples, halved; a level for each.
    /// let settings = Settings { stages: 1, r: 2, factor: 0, depth: 0, ..Settings::default() };
    /// let mut line = Line::open(settings, &[], &[])?;
    /// let mut out = [9.0; 3];
    /// assert_eq!(line.feed(&[8192, 8192, 16384, 16384, 0], &mut out)?, Moved { taken: 5, written: 2 });
    /// assert_eq!(out, [0.25, 0.5, 9.0]);
    /// # Ok::<(), gauge_line::Refusal>(())
    /// ```
    #[inline]
    pub fn feed(&mut self, samples: &[i32], out: &mut [f32]) -> Result<Moved, Refusal> {
        let (mut taken, mut written) = (0, 0);
        // SAFETY: each pointer is lent with the length of its own slice, and the fields are borrowed for this call alone.
        let number = unsafe {
            on_line!(
                gauge_raw_line_feed,
                [],
                self,
                [
                    samples.as_ptr(),
                    samples.len() as u64,
                    out.as_mut_ptr(),
                    out.len() as u64,
                    &mut taken,
                    &mut written
                ]
            )
        };
        answered(number, Moved::from_counts(taken, written))
    }

    /// One step of a feed. Without a `place` it stops. Else a level that is due is written; else the sample at `at` is taken and a level may result; with no sample there it
    /// stops.
    ///
    /// Refused: `State`.
    ///
    /// ```
    /// # use gauge_line::{Line, Settings, Step};
    /// # let settings = Settings { stages: 1, r: 1, factor: 0, depth: 0, phases: 2, phase_taps: 1, step: 0.5, ..Settings::default() };
    /// # let mut line = Line::open(settings, &[], &[1.0, 0.0])?;
    /// assert_eq!(line.step(&[16384, 0], 0, false)?, Step::Stopped);
    /// assert_eq!(line.step(&[16384, 0], 0, true)?, Step::Took);
    /// assert_eq!(line.step(&[16384, 0], 1, true)?, Step::Wrote(-0.5));
    /// # Ok::<(), gauge_line::Refusal>(())
    /// ```
    #[inline]
    pub fn step(&mut self, samples: &[i32], at: usize, place: bool) -> Result<Step, Refusal> {
        let (mut taken, mut written, mut value) = (0, 0, 0.0);
        // SAFETY: the pointer is lent with the length of its own slice, and the fields are borrowed for this call alone.
        let number = unsafe {
            on_line!(
                gauge_raw_line_step,
                [],
                self,
                [
                    samples.as_ptr(),
                    samples.len() as u64,
                    at as u64,
                    u64::from(place),
                    &mut taken,
                    &mut written,
                    &mut value
                ]
            )
        };
        let step = match (taken, written) {
            (0, 0) => Step::Stopped,
            (0, _) => Step::Wrote(value),
            (_, 0) => Step::Took,
            (_, _) => Step::TookAndWrote(value),
        };
        answered(number, step)
    }

    /// How many values were cut to 16 bits since the opening or the last reset: scaled sums and, where the FIR is on, its sums, of all samples taken so far. A sum of −32,768
    /// or 32,767 is not cut. It holds at 2^32 − 1.
    ///
    /// ```
    /// # use gauge_line::{Line, Settings};
    /// let mut line = Line::open(Settings::default(), &[], &[])?;
    /// line.feed(&[32_767, 32_768, -32_768, -32_769], &mut [0.0; 4])?;
    /// assert_eq!(line.cuts(), 2);
    /// line.reset()?;
    /// assert_eq!(line.cuts(), 0);
    /// # Ok::<(), gauge_line::Refusal>(())
    /// ```
    pub fn cuts(&self) -> u32 {
        self.cuts
    }

    /// Makes the line what its opening made it.
    ///
    /// Refused: `State`.
    ///
    /// ```
    /// # use gauge_line::{Line, Settings};
    /// # let settings = Settings { stages: 1, r: 4, factor: 0, depth: 0, ..Settings::default() };
    /// let mut line = Line::open(settings, &[], &[])?;
    /// line.feed(&[1, 2, 3], &mut [0.0])?;
    /// line.reset()?;
    /// assert_eq!(line, Line::open(settings, &[], &[])?);
    /// # Ok::<(), gauge_line::Refusal>(())
    /// ```
    pub fn reset(&mut self) -> Result<(), Refusal> {
        // SAFETY: the fields are borrowed for this call alone.
        let number = unsafe { on_line!(gauge_raw_line_reset, [], self, []) };
        answered(number, ())
    }
}

/// What to feed next: the rest of `last` behind the samples taken, or `waiting` where nothing of it is left. A count past the end is the length of last.
///
/// ```
/// use gauge_line::next_piece;
///
/// assert_eq!(next_piece(&[1, 2, 3], 2, &[4, 5]), [3]);
/// assert_eq!(next_piece(&[1, 2, 3], 3, &[4, 5]), [4, 5]);
/// ```
pub fn next_piece<'a>(last: &'a [i32], taken: usize, waiting: &'a [i32]) -> &'a [i32] {
    match last.get(taken..) {
        None | Some([]) => waiting,
        Some(rest) => rest,
    }
}

#[cfg(test)]
mod tests {
    use super::*;

    const SETTINGS: Settings = Settings {
        stages: 3,
        r: 5,
        factor: 7,
        depth: 2,
        phases: 4,
        phase_taps: 1,
        phase: Phase::Straight,
        step: 1.5,
        thinning: Thinning::Integrators,
    };

    fn opened() -> Line {
        Line::open(SETTINGS, &[11, 12], &[0.1, 0.2, 0.3, 0.4]).unwrap()
    }

    // Each field is what its name says: two of one type could else be lent in the wrong order.
    #[test]
    fn an_opening_writes_each_field() {
        let line = opened();
        assert_eq!((line.stages, line.r, line.sample_counter), (3, 5, 0));
        assert_eq!((line.tap_count, line.factor, line.wait), (2, 7, 2));
        assert_eq!((line.depth, line.phases, line.phase_taps), (2, 4, 1));
        assert_eq!((line.straight, line.mu, line.step), (1, 1.0, 1.5));
        assert_eq!(line.taps[..3], [11, 12, 0]);
        assert_eq!(line.fir_delay, [0; MOST_TAPS]);
        assert_eq!(line.prototype[..5], [0.1, 0.2, 0.3, 0.4, 0.0]);
        assert_eq!((line.cuts, line.thinning), (0, 0));
        assert_eq!(line.neighbours, [0; MOST_NEIGHBOURS]);
    }

    #[test]
    fn scaled_sums_and_the_fir_count_together() {
        // 40,000 is cut, and twice 32,767 of the FIR again.
        let mut line = Line::open(Settings::default(), &[32_767; 2], &[]).unwrap();
        line.feed(&[40_000, 32_767, 0], &mut [0.0; 3]).unwrap();
        assert_eq!(line.cuts(), 2);
    }

    #[test]
    fn the_count_holds_at_its_end() {
        let mut line = Line::open(Settings::default(), &[], &[]).unwrap();
        line.cuts = u32::MAX - 1;
        let mut out = [0.0; 3];
        line.feed(&[1 << 20; 3], &mut out).unwrap();
        assert_eq!((line.cuts(), out), (u32::MAX, [32_767.0 / 32_768.0; 3]));
    }

    #[test]
    fn by_default_each_sample_makes_a_level() {
        let mut line = Line::open(Settings::default(), &[], &[]).unwrap();
        let mut out = [0.0; 2];
        line.feed(&[16384, -8192], &mut out).unwrap();
        assert_eq!(out, [0.5, -0.25]);
    }

    #[test]
    fn a_sample_reaches_the_integrators_alone() {
        let mut line = opened();
        line.feed(&[9], &mut [0.0]).unwrap();
        assert_eq!((line.integrators[0], line.combs[0]), (9, 0));
        assert_eq!(line.sample_counter, 1);
    }

    // Its sums go by neighbours alone, and a reset keeps the setting.
    #[test]
    fn a_line_of_neighbours_adds_to_none_of_the_integrators() {
        let settings = Settings {
            r: 8,
            thinning: Thinning::Neighbours,
            ..SETTINGS
        };
        let fresh = Line::open(settings, &[11, 12], &[0.1, 0.2, 0.3, 0.4]).unwrap();
        let mut line = fresh.clone();
        line.feed(&[9, 5], &mut [0.0]).unwrap();
        assert_eq!((line.thinning, line.sample_counter), (1, 2));
        assert_eq!(line.neighbours[..4], [5, 14, 23, 32]);
        assert_eq!((line.integrators, line.combs), ([0; 8], [0; 8]));
        line.reset().unwrap();
        assert_eq!(line, fresh);
    }

    // Wrapped by default, and a reset keeps the setting.
    #[test]
    fn a_line_keeps_its_phase() {
        let mut line = opened();
        line.reset().unwrap();
        assert_eq!(line, opened());
        let settings = Settings {
            phases: 4,
            phase_taps: 1,
            ..Settings::default()
        };
        let line = Line::open(settings, &[], &[0.1, 0.2, 0.3, 0.4]).unwrap();
        assert_eq!(line.straight, 0);
    }

    // "not looked at" where there is no resampler: the line is the same.
    #[test]
    fn the_phase_of_no_resampler_is_not_kept() {
        let off = Settings {
            phases: 0,
            ..SETTINGS
        };
        assert_eq!(Line::open(off, &[11], &[]).unwrap().straight, 0);
    }

    #[test]
    fn a_damaged_line_is_refused_and_stays() {
        let mut line = opened();
        (line.wait, line.cuts) = (0, 7);
        let damaged = line.clone();
        let mut out = [9.0];
        assert_eq!(line.feed(&[1; 40], &mut out), Err(Refusal::State));
        assert_eq!(line.step(&[1], 0, true), Err(Refusal::State));
        assert_eq!(line.reset(), Err(Refusal::State));
        assert_eq!((line, out), (damaged, [9.0]));
    }

    #[test]
    fn a_count_past_the_end_is_the_length() {
        assert_eq!(next_piece(&[1], 9, &[2]), [2]);
        assert_eq!(next_piece(&[], 0, &[]), [0; 0]);
    }
}
