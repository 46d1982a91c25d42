//! Levels, written as they come.

use crate::begun::Begun;
use crate::fault::Fault;
use crate::format::Format;
use crate::line_file::LineFile;
use crate::section::{sections, whole};
use crate::target::Target;

/// Levels on their way to a target.
pub struct Levels {
    target: Target,
    format: Format,
    moments: Moments,
    begun: bool,
    bytes: Vec<u8>,
}

/// When levels were: the moments that they tell of, evenly apart.
pub struct Moments {
    name: &'static str,
    first: f64,
    every: f64,
    count: u64,
}

impl Moments {
    /// Of the levels of a line that is so far: each at the sample that it tells of, its delay taken off, counted from 0; in seconds where samples a second are known.
    pub fn of(file: &LineFile, begun: &Begun, rate: Option<f64>) -> Result<Moments, Fault> {
        let sections = sections(file).map_err(|refusal| Fault::file("the line", refusal))?;
        let whole = whole(&sections);
        let delay = Some(whole.delay).filter(|delay| delay.is_finite());
        let first = begun.moment - delay.unwrap_or(0.0);
        let (name, unit) = rate.map_or(("sample", 1.0), |rate| ("seconds", rate));
        Ok(Moments {
            name,
            first: first / unit,
            every: whole.samples_per_value / unit,
            count: 0,
        })
    }

    fn next(&mut self) -> f64 {
        let moment = self.first + self.count as f64 * self.every;
        self.count += 1;
        // Without the digits that a product leaves behind, and no -0.
        (moment * 1e6).round() / 1e6 + 0.0
    }
}

// Levels that are written without their moments are counted from 0.
const COUNTED: Moments = Moments {
    name: "level",
    first: 0.0,
    every: 1.0,
    count: 0,
};

impl Levels {
    /// Levels to this target.
    pub fn to(target: Target, format: Format) -> Levels {
        Levels {
            target,
            format,
            moments: COUNTED,
            begun: false,
            bytes: Vec::new(),
        }
    }

    /// The same, and where the format has moments, these.
    pub fn at(self, moments: Moments) -> Levels {
        Levels { moments, ..self }
    }

    /// Writes levels behind those written so far. As text each has the digits that give the same f32 when read.
    pub fn write(&mut self, levels: &[f32]) -> Result<(), Fault> {
        self.bytes.clear();
        self.add_header();
        for level in levels {
            match self.format {
                Format::Text => self.bytes.extend(format!("{level}\n").bytes()),
                Format::Raw => self.bytes.extend(level.to_le_bytes()),
                Format::Csv => {
                    let moment = self.moments.next();
                    self.bytes.extend(format!("{moment},{level}\n").bytes());
                }
            }
        }
        self.target.write(&self.bytes)
    }

    fn add_header(&mut self) {
        if self.format == Format::Csv && !self.begun {
            let header = format!("{},level\n", self.moments.name);
            self.bytes.extend(header.bytes());
        }
        self.begun = true;
    }

    /// What is written so far is handed to whoever reads it now.
    pub fn pass_on(&mut self) -> Result<(), Fault> {
        self.target.pass_on()
    }

    /// All levels are written.
    pub fn finish(self) -> Result<(), Fault> {
        self.target.finish()
    }
}
