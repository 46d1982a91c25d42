//! How far a line is when a run begins: freshly opened, or taken up from a parked sheet.

use crate::line_file::LineFile;
use crate::parked::Parked;
use crate::section::first_level;

/// How far a line is.
pub struct Begun {
    /// The samples up to and with the one that makes the next level; 0 where one is due.
    pub first_level: usize,
    /// The sample, counted from the run's first as 0, that the next level tells of if no section were late.
    pub moment: f64,
    /// Values cut so far.
    pub cuts: u32,
}

impl Begun {
    /// A fresh line.
    pub fn opened(file: &LineFile) -> Begun {
        let first_level = first_level(file);
        Begun {
            first_level,
            moment: first_level as f64 - 1.0,
            cuts: 0,
        }
    }

    /// A parked line. With every value that the resampler takes, its mu falls by 1; a level is due where it is below 1.
    pub fn taken_up(parked: &Parked) -> Begun {
        let numbers = &parked.numbers;
        let (next, every) = values(parked);
        let mu = match numbers.phases {
            0 => 1.0,
            _ => f64::from(parked.mu()),
        };
        let awaited = next + (mu.floor() as i64 - 1) * every;
        Begun {
            first_level: usize::try_from(awaited).unwrap_or(0),
            moment: next as f64 - 1.0 + (mu - 1.0) * every as f64,
            cuts: numbers.cuts,
        }
    }
}

// The samples up to and with the one that makes the next value for the resampler, and those from one value to the next.
fn values(parked: &Parked) -> (i64, i64) {
    let numbers = &parked.numbers;
    // A stage makes a value of two.
    let halved = parked.held().rev().fold(1, |n, held| 2 * n - held as i64);
    let (wait, factor) = match numbers.taps {
        0 => (1, 1),
        _ => (parked.wait() as i64, numbers.factor as i64),
    };
    let r = numbers.r as i64;
    let thinned = wait + (halved - 1) * factor;
    let next = thinned * r - parked.counter() as i64;
    (next, (factor * r) << numbers.depth)
}
