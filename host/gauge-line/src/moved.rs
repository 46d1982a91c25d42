//! What a feed or a feeding block answers.

/// Samples taken from the front of those lent, and outputs written to the front of the span. Continue with `samples[taken..]`.
#[derive(Clone, Copy, Debug, Default, PartialEq, Eq)]
pub struct Moved {
    /// Samples taken.
    pub taken: usize,
    /// Outputs written.
    pub written: usize,
}

impl Moved {
    /// From the archive's counts: neither is above the length of a slice, so both fit.
    pub(crate) fn from_counts(taken: u64, written: u64) -> Moved {
        Moved {
            taken: taken as usize,
            written: written as usize,
        }
    }
}
