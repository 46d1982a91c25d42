//! How samples and levels stand in a file.

use crate::fault::{Fault, front};
use crate::nearest::did_you_mean;

/// How levels stand in a file.
#[derive(Clone, Copy, Debug, PartialEq, Eq)]
pub enum Format {
    /// One number a line.
    Text,
    /// Little-endian f32, 4 bytes each.
    Raw,
    /// A header, then a line for each level: when it was, and the level.
    Csv,
}

/// How samples stand in a file.
#[derive(Clone, Copy, Debug, PartialEq, Eq)]
pub enum Recorded {
    /// One number a line; blank lines, and what stands behind a `#`, are skipped.
    Text,
    /// Little-endian i32, 4 bytes each.
    Raw,
    /// Little-endian i16, 2 bytes each.
    Raw16,
    /// Rows of cells; one column is the samples.
    Csv,
    /// A WAV file; one channel is the samples.
    Wav,
}

const LEVELS: [(&str, Format); 3] = [
    ("text", Format::Text),
    ("raw", Format::Raw),
    ("csv", Format::Csv),
];

const SAMPLES: [(&str, Recorded); 5] = [
    ("text", Recorded::Text),
    ("raw", Recorded::Raw),
    ("raw16", Recorded::Raw16),
    ("csv", Recorded::Csv),
    ("wav", Recorded::Wav),
];

impl Format {
    /// The format of levels with this name.
    pub fn named(name: &str) -> Result<Format, Fault> {
        named("levels are", name, &LEVELS)
    }
}

impl Recorded {
    /// The format of samples with this name.
    pub fn named(name: &str) -> Result<Recorded, Fault> {
        named("samples are", name, &SAMPLES)
    }

    /// How levels of such samples are written where nothing else is asked for.
    pub fn levels(self) -> Format {
        match self {
            Recorded::Text | Recorded::Wav => Format::Text,
            Recorded::Raw | Recorded::Raw16 => Format::Raw,
            Recorded::Csv => Format::Csv,
        }
    }
}

fn named<F: Copy>(what: &str, name: &str, all: &[(&str, F)]) -> Result<F, Fault> {
    if let Some((_, format)) = all.iter().find(|(known, _)| *known == name) {
        return Ok(*format);
    }
    let names: Vec<&str> = all.iter().map(|(known, _)| *known).collect();
    let hint = did_you_mean(name, &names);
    let name = front(name);
    let names = names.join(", ");
    Err(Fault::usage(format!("{what} {names}, not {name}{hint}")))
}
