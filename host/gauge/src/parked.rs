//! A parked line in a file: its fields, and what is wrong with one that is refused. docs/parking.md has the layout.

use crate::fault::Fault;
use crate::line_file::LineFile;
use crate::parked_fault::{wrong_field, wrong_length};
use crate::sheet::{SheetFile, pairs};
use gauge_line::passband::STAGE_TAPS;
use gauge_line::{Line, Phase, Refusal, Settings, Thinning};
use std::path::Path;

/// What the entries are, in their order. The last is there where neighbours thin, and entry 1 is empty then.
pub const NAMES: [&str; 8] = [
    "settings",
    "CIC",
    "FIR taps",
    "FIR delay",
    "half-band delays",
    "prototype",
    "resampler",
    "neighbours",
];

/// The bytes of an entry, and where in the sheet they stand.
#[derive(Clone, Copy)]
pub struct Part<'a> {
    /// The place of its first byte.
    pub at: usize,
    /// All of it.
    pub bytes: &'a [u8],
}

impl Part<'_> {
    fn number<const BYTES: usize>(&self, at: usize) -> [u8; BYTES] {
        let found = self.bytes[at..].first_chunk();
        *found.expect("an entry that is as long as its settings make it")
    }

    /// The number of 16 bits at a place.
    pub fn short(&self, at: usize) -> u16 {
        u16::from_le_bytes(self.number(at))
    }

    /// The number of 32 bits at a place.
    pub fn word(&self, at: usize) -> u32 {
        u32::from_le_bytes(self.number(at))
    }

    /// The float at a place.
    pub fn float(&self, at: usize) -> f32 {
        f32::from_bits(self.word(at))
    }

    fn shorts(&self) -> Vec<i16> {
        let places = (0..self.bytes.len()).step_by(2);
        places.map(|at| self.short(at) as i16).collect()
    }

    fn floats(&self) -> Vec<f32> {
        let places = (0..self.bytes.len()).step_by(4);
        places.map(|at| self.float(at)).collect()
    }
}

/// The numbers of the settings entry, as they stand there.
pub struct Numbers {
    /// CIC stages.
    pub stages: usize,
    /// CIC factor.
    pub r: usize,
    /// FIR taps.
    pub taps: usize,
    /// FIR factor.
    pub factor: usize,
    /// Half-band stages.
    pub depth: usize,
    /// Phases of the resampler.
    pub phases: usize,
    /// Taps of each phase.
    pub phase_taps: usize,
    /// 0 for wrapped phase, 1 for straight.
    pub straight: usize,
    /// The resampler's step.
    pub step: f32,
    /// Values that were cut to 16 bits.
    pub cuts: u32,
}

impl Numbers {
    /// Of a settings entry, which has 24 bytes.
    pub fn of(entry: Part) -> Numbers {
        let short = |at| usize::from(entry.short(at));
        Numbers {
            stages: short(0),
            r: short(2),
            taps: short(4),
            factor: short(6),
            depth: short(8),
            phases: short(10),
            phase_taps: short(12),
            straight: short(14),
            step: entry.float(16),
            cuts: entry.word(20),
        }
    }

    /// The half-band stages that are parked: a depth over 5 counts as 5.
    pub fn stage_taps(&self) -> &'static [usize] {
        &STAGE_TAPS[..self.depth.min(STAGE_TAPS.len())]
    }

    /// The neighbours that are parked: N for each halving of r, rounded down, that leaves at least 1.
    pub fn neighbours(&self) -> usize {
        self.stages * self.r.checked_ilog2().unwrap_or(0) as usize
    }

    /// How long the numbers make each entry, of a line that this kind thins.
    pub fn lengths(&self, thinning: Thinning) -> Vec<usize> {
        let stages = self.stage_taps().iter();
        let (cic, last) = match thinning {
            Thinning::Integrators => (2 + 8 * self.stages, None),
            Thinning::Neighbours => (0, Some(2 + 4 * self.neighbours())),
        };
        let mut all = vec![
            24,
            cic,
            2 * self.taps,
            2 + 2 * self.taps,
            stages.map(|taps| 6 + 16 * taps).sum(),
            4 * self.phases * self.phase_taps,
            4 + 4 * self.phase_taps,
        ];
        all.extend(last);
        all
    }
}

/// Which kind thins a parked line: the number of its entries alone says it.
pub fn thinning_of(parts: &[Part]) -> Thinning {
    match parts.len() == NAMES.len() {
        true => Thinning::Neighbours,
        false => Thinning::Integrators,
    }
}

/// The fields of a parked line.
pub struct Parked<'a> {
    /// The settings entry.
    pub numbers: Numbers,
    /// Every entry.
    pub parts: Vec<Part<'a>>,
}

impl Parked<'_> {
    /// What the line was opened with.
    pub fn line_file(&self, file: &Path) -> LineFile {
        let numbers = &self.numbers;
        let settings = Settings {
            stages: numbers.stages,
            r: numbers.r,
            factor: numbers.factor,
            depth: numbers.depth,
            phases: numbers.phases,
            phase_taps: numbers.phase_taps,
            phase: match numbers.straight {
                0 => Phase::Wrapped,
                _ => Phase::Straight,
            },
            step: numbers.step,
            thinning: thinning_of(&self.parts),
        };
        LineFile::parked(
            file,
            settings,
            self.parts[2].shorts(),
            self.parts[5].floats(),
        )
    }

    /// Samples since the last sum.
    pub fn counter(&self) -> usize {
        let part = match thinning_of(&self.parts) {
            Thinning::Integrators => self.parts[1],
            Thinning::Neighbours => self.parts[7],
        };
        part.short(0).into()
    }

    /// Values up to and with the one that makes the FIR's next output.
    pub fn wait(&self) -> usize {
        self.parts[3].short(0).into()
    }

    /// Where the half-band stages stand in their entry, each with its taps.
    pub fn stages(&self) -> impl DoubleEndedIterator<Item = (usize, usize)> {
        let mut at = 0;
        let taps = self.numbers.stage_taps();
        let stages = taps.iter().map(move |taps| {
            let stage = (at, *taps);
            at += 6 + 16 * taps;
            stage
        });
        stages.collect::<Vec<_>>().into_iter()
    }

    /// Values that each half-band stage holds.
    pub fn held(&self) -> impl DoubleEndedIterator<Item = usize> {
        self.stages().map(|(at, _)| self.parts[4].short(at).into())
    }

    /// The resampler's place before its next value.
    pub fn mu(&self) -> f32 {
        self.parts[6].float(0)
    }
}

/// A file with a parked line.
pub struct ParkedFile(SheetFile);

impl ParkedFile {
    /// Reads a file; what is in it is looked at when it is asked for.
    pub fn read(file: &Path) -> Result<ParkedFile, Fault> {
        SheetFile::read(file).map(ParkedFile)
    }

    /// All of it.
    pub fn bytes(&self) -> &[u8] {
        &self.0.bytes
    }

    /// The line that is taken up from it, and its fields.
    pub fn taken_up(&self) -> Result<(Line, Parked<'_>), Fault> {
        match Line::take_up(&self.0.bytes) {
            Ok(line) => Ok((line, self.parked()?)),
            Err(Refusal::State) => {
                let why = wrong_field(&self.0.file, &self.parked()?);
                Err(self.refused(Refusal::State, why))
            }
            Err(_) => Err(self.parked().err().unwrap_or_else(|| {
                let why = "its entries are none of a parked line";
                self.refused(Refusal::Parked, why.to_string())
            })),
        }
    }

    fn refused(&self, refusal: Refusal, why: String) -> Fault {
        let (number, name) = (refusal.number(), refusal.name());
        Fault::file(
            &self.0.file,
            format_args!("refusal {number}, {name}: {why}"),
        )
    }

    // The fields, where each entry is as long as the settings make it.
    fn parked(&self) -> Result<Parked<'_>, Fault> {
        self.0.sheet()?;
        let part = |(offset, size): (u64, u64)| {
            let at = offset as usize;
            let bytes = &self.0.bytes[at..at + size as usize];
            Part { at, bytes }
        };
        let parts: Vec<Part> = pairs(&self.0.bytes).into_iter().map(part).collect();
        if let Some(why) = wrong_length(&parts) {
            return Err(self.refused(Refusal::Parked, why));
        }
        let numbers = Numbers::of(parts[0]);
        Ok(Parked { numbers, parts })
    }
}
