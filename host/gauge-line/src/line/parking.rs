//! A line parked as a tap sheet, and taken up from one.

use super::{Line, ZEROS};
use crate::limits::{MOST_PHASE_TAPS, MOST_PROTOTYPE, MOST_TAPS};
use crate::raw;
use crate::refusal::{Refusal, answered};

// The bytes of a sheet: the directory of eight entries, the settings, FIR taps, wait and FIR delay, five half-band stages, the prototype, mu and the resampler's delay, place and 30
// neighbours, as of 3 stages and 10 halvings: they are as many as gain bits. With integrators and combs in place of these, and seven entries, it is shorter.
const MOST_PARKED: usize = 66
    + 24
    + 2 * MOST_TAPS
    + (2 + 2 * MOST_TAPS)
    + 750
    + 4 * MOST_PROTOTYPE
    + (4 + 4 * MOST_PHASE_TAPS)
    + (2 + 4 * 30);

// A function of the archive on a line that is only read: its fields in the order in which they cross, then what stands behind.
macro_rules! reading_line {
    ($function:ident, $line:expr, [$($after:expr),*]) => {
        raw::$function(
            $line.stages,
            $line.r,
            &$line.integrators,
            &$line.combs,
            $line.sample_counter,
            &$line.taps,
            $line.tap_count,
            $line.factor,
            &$line.fir_delay,
            $line.wait,
            $line.depth,
            &$line.delays,
            &$line.held,
            &$line.counts,
            $line.phases,
            $line.phase_taps,
            $line.straight,
            $line.mu,
            $line.step,
            &$line.delay,
            &$line.prototype,
            $line.cuts,
            $line.thinning,
            &$line.neighbours,
            $($after,)*
        )
    };
}

impl Line {
    /// No line needs more bytes when it is parked.
    pub const MOST_PARKED: usize = MOST_PARKED;

    /// How many bytes [`park`](Line::park) writes. It depends on the settings alone.
    ///
    /// Refused: `State`.
    pub fn parked_len(&self) -> Result<usize, Refusal> {
        let mut bytes = 0;
        // SAFETY: the fields are borrowed for this call alone.
        let number = unsafe { reading_line!(gauge_raw_line_parked_len, self, [&mut bytes]) };
        answered(number, bytes as usize)
    }

    /// Writes the line as a tap sheet to the front of the span: settings, taps, prototype and all that a later feed depends on. Answers how many bytes; the places behind them stay
    /// as they were. docs/parking.md says what each byte is.
    ///
    /// The line that [`take_up`](Line::take_up) makes of the sheet gives, feed after feed, the answers, levels and cut counts of a line that was never parked.
    ///
    /// Refused: `State`; then `Entries` where the span is too short. The span is then as it was.
    ///
    /// ```
    /// use gauge_line::{Line, Settings};
    ///
    /// let mut line = Line::open(Settings { r: 2, ..Settings::default() }, &[], &[])?;
    /// line.feed(&[8192], &mut [0.0])?;
    /// let mut sheet = [0; Line::MOST_PARKED];
    /// let length = line.park(&mut sheet)?;
    /// assert_eq!(length, 98);
    ///
    /// // The battery is changed.
    /// let mut line = Line::take_up(&sheet[..length])?;
    /// let mut out = [0.0];
    /// line.feed(&[16384], &mut out)?;
    /// assert_eq!(out, [0.375]);
    /// # Ok::<(), gauge_line::Refusal>(())
    /// ```
    pub fn park(&self, span: &mut [u8]) -> Result<usize, Refusal> {
        let mut written = 0;
        // SAFETY: the pointer is lent with the length of its own slice, and the fields are borrowed for this call alone.
        let number = unsafe {
            reading_line!(
                gauge_raw_line_park,
                self,
                [span.as_mut_ptr(), span.len() as u64, &mut written]
            )
        };
        answered(number, written as usize)
    }

    /// The line of a parked sheet.
    ///
    /// Refused: `Directory` and `Entries` where the bytes are no tap sheet; `Parked` where it has neither seven entries nor eight, or one of another length than its settings
    /// make it; `State` where a line with these fields would be refused, or parking writes no such fields.
    ///
    /// ```
    /// use gauge_line::{Line, Refusal, Settings};
    ///
    /// let mut sheet = [0; Line::MOST_PARKED];
    /// let length = Line::open(Settings::default(), &[], &[])?.park(&mut sheet)?;
    /// assert_eq!(Line::take_up(&sheet[..length - 1]).err(), Some(Refusal::Entries));
    /// // The byte at 58 is the number of CIC stages.
    /// sheet[58] = 2;
    /// assert_eq!(Line::take_up(&sheet[..length]).err(), Some(Refusal::Parked));
    /// # Ok::<(), Refusal>(())
    /// ```
    pub fn take_up(sheet: &[u8]) -> Result<Line, Refusal> {
        let mut line = ZEROS;
        // SAFETY: the pointer is lent with the length of its own slice, and the fields are this function's own.
        let number = unsafe {
            on_line!(
                gauge_raw_line_take_up_3,
                [sheet.as_ptr(), sheet.len() as u64],
                line,
                []
            )
        };
        answered(number, line)
    }
}
