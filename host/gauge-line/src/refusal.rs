//! Why a call is turned back.

use core::error::Error;
use core::fmt;

/// Why a call is turned back: the first refusal that applies. Nothing is then written and the state stays as it was.
///
/// ```
/// use gauge_line::{CicDecimator, Refusal};
///
/// let refusal = CicDecimator::new(9, 4).unwrap_err();
/// assert_eq!(refusal, Refusal::Stages);
/// assert_eq!((refusal.number(), refusal.name()), (1, "Stages"));
/// assert_eq!(refusal.to_string(), "refusal 1, Stages: CIC stages not 1 to 8");
/// ```
// printed: refusals rust
#[derive(Clone, Copy, Debug, PartialEq, Eq, Hash)]
pub enum Refusal {
    /// CIC stages not 1 to 8.
    Stages = 1,
    /// CIC factor not 1 to 4,096.
    Factor = 2,
    /// Scaled sums: gain bits over 31.
    GainBits = 3,
    /// CIC interpolator: span shorter than the factor.
    Span = 4,
    /// FIR factor not 1 to 4,096.
    FirFactor = 5,
    /// FIR taps: none, or over 65,536; over 128 one sample at a time; in the line only over 128.
    Taps = 6,
    /// Samples of a block: none, or samples or span over 65,536.
    Samples = 7,
    /// FIR taps not a multiple of the interpolation factor.
    TapsMultiple = 8,
    /// Linear resampling: ratio not above zero or not finite.
    Ratio = 9,
    /// Half-band taps not 1 to 23.
    HalfBandTaps = 10,
    /// Depth over 5, or a cascade of 0; in the line only over 5.
    Depth = 11,
    /// Phases not 2 to 64, or taps of a phase not 1 to 16.
    Phases = 12,
    /// Prototype not phases times taps long.
    Prototype = 13,
    /// Step not finite or not above zero; in the line not 1/64 to 64.
    Step = 14,
    /// Settings in a state that its opening refuses, or a counter out of range: the state was not opened, was refused at its opening, or was damaged.
    State = 15,
    /// Tap sheet: over 32 entries, an end inside the directory, or a reader's count that is not its sheet's.
    Directory = 16,
    /// Tap sheet: a pair unsorted, overlapping or outside the data; written: lengths that do not add up to the bytes, a sheet over 2^32 - 1 bytes, or a span too short for it.
    Entries = 17,
    /// Tap sheet: entry number not below the count.
    EntryNumber = 18,
    /// Linear-phase taps not 1 to 23.
    PhaseTaps = 19,
    /// Linear-phase filter: source and span of a block not of one length.
    Lengths = 20,
    /// Parked line: another count of entries than it has, or an entry not as long as its settings make it.
    Parked = 21,
    /// Feeding plan: the two lists and the two of results not of one length, over 4,096 calls, or a length over 65,536.
    Plan = 22,
    /// Thinning without integrators: factor not a power of two.
    PowerOfTwo = 23,
}

// In the order of the numbers: the refusal, its name, when it applies.
const TABLE: [(Refusal, &str, &str); 23] = [
    (Refusal::Stages, "Stages", "CIC stages not 1 to 8"),
    (Refusal::Factor, "Factor", "CIC factor not 1 to 4,096"),
    (Refusal::GainBits, "GainBits", "gain bits over 31"),
    (Refusal::Span, "Span", "span shorter than the factor"),
    (Refusal::FirFactor, "FirFactor", "FIR factor not 1 to 4,096"),
    (Refusal::Taps, "Taps", "FIR taps none or too many"),
    (
        Refusal::Samples,
        "Samples",
        "samples none, or samples or span over 65,536",
    ),
    (
        Refusal::TapsMultiple,
        "TapsMultiple",
        "FIR taps not a multiple of the factor",
    ),
    (
        Refusal::Ratio,
        "Ratio",
        "ratio not above zero or not finite",
    ),
    (
        Refusal::HalfBandTaps,
        "HalfBandTaps",
        "half-band taps not 1 to 23",
    ),
    (Refusal::Depth, "Depth", "depth out of its limits"),
    (
        Refusal::Phases,
        "Phases",
        "phases not 2 to 64, or their taps not 1 to 16",
    ),
    (
        Refusal::Prototype,
        "Prototype",
        "prototype not phases times taps long",
    ),
    (Refusal::Step, "Step", "step out of its limits"),
    (
        Refusal::State,
        "State",
        "settings that the opening refuses, or a counter out of range",
    ),
    (
        Refusal::Directory,
        "Directory",
        "sheet with too many entries, or cut off inside its directory",
    ),
    (
        Refusal::Entries,
        "Entries",
        "entries unsorted, overlapping or outside the sheet's data",
    ),
    (
        Refusal::EntryNumber,
        "EntryNumber",
        "entry number not below the count",
    ),
    (
        Refusal::PhaseTaps,
        "PhaseTaps",
        "linear-phase taps not 1 to 23",
    ),
    (
        Refusal::Lengths,
        "Lengths",
        "source and span not of one length",
    ),
    (
        Refusal::Parked,
        "Parked",
        "another count of entries than a parked line has, or an entry of another length",
    ),
    (
        Refusal::Plan,
        "Plan",
        "lists of a plan not of one length, or past a limit",
    ),
    (
        Refusal::PowerOfTwo,
        "PowerOfTwo",
        "factor not a power of two",
    ),
];
// printed until here

impl Refusal {
    /// The number that the archive answers, from 1.
    pub fn number(self) -> u64 {
        self as u64
    }

    /// The refusal of a number.
    pub fn from_number(number: u64) -> Option<Refusal> {
        let at = usize::try_from(number).ok()?.checked_sub(1)?;
        TABLE.get(at).map(|row| row.0)
    }

    /// The name, as the variant has it.
    pub fn name(self) -> &'static str {
        TABLE[self as usize - 1].1
    }

    /// When it applies, in words.
    pub fn reason(self) -> &'static str {
        TABLE[self as usize - 1].2
    }
}

impl fmt::Display for Refusal {
    fn fmt(&self, f: &mut fmt::Formatter<'_>) -> fmt::Result {
        write!(
            f,
            "refusal {}, {}: {}",
            self.number(),
            self.name(),
            self.reason()
        )
    }
}

impl Error for Refusal {}

/// The value, or the refusal whose number the archive answered.
pub(crate) fn answered<T>(number: u64, value: T) -> Result<T, Refusal> {
    if number == 0 {
        return Ok(value);
    }
    Err(Refusal::from_number(number).expect("the archive answers 0 or a number of the table"))
}

#[cfg(test)]
mod tests {
    extern crate std;

    use super::*;
    use std::format;

    #[test]
    fn each_number_has_its_row() {
        for (place, row) in TABLE.iter().enumerate() {
            assert_eq!(row.0 as usize, place + 1);
            assert_eq!(row.1, format!("{:?}", row.0));
            assert_eq!(Refusal::from_number(place as u64 + 1), Some(row.0));
        }
        assert_eq!(Refusal::from_number(0), None);
        assert_eq!(Refusal::from_number(TABLE.len() as u64 + 1), None);
    }
}
