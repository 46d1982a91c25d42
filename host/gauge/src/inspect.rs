//! `gauge inspect`: names every field of a parked line.

use crate::fault::Fault;
use crate::options::Options;
use crate::parked::{NAMES, Parked, ParkedFile, Part};
use crate::sheet::entries;
use crate::target::Target;
use std::ffi::OsString;
use std::fmt::{Display, Write};
use std::path::Path;

/// Prints the fields of a parked line.
pub fn inspect(arguments: &[OsString]) -> Result<(), Fault> {
    let options = Options::parse(arguments, &["--in"], "--in")?;
    let file = ParkedFile::read(Path::new(options.needed("--in")?))?;
    let (_, parked) = file.taken_up()?;
    let mut out = Target::create("-")?;
    out.write(table(&parked, file.bytes().len()).as_bytes())?;
    out.finish()
}

// So many numbers of a list stand in a row.
const ROW: usize = 8;

// Rows on their way: the place of a field in the file, its name, what it is.
struct Table(String);

impl Table {
    fn row(&mut self, at: usize, name: &str, value: impl Display) {
        // A text in memory takes whatever is written.
        let _ = writeln!(self.0, "{at:>6}  {name:<22} {value}");
    }

    // The numbers of a list, each so many bytes.
    fn list<T: Display>(&mut self, at: usize, bytes: usize, name: &str, numbers: &[T]) {
        for (row, part) in numbers.chunks(ROW).enumerate() {
            let first = row * ROW;
            let name = match part.len() {
                1 => format!("{name} {first}"),
                many => format!("{name} {first} to {}", first + many - 1),
            };
            let texts: Vec<String> = part.iter().map(T::to_string).collect();
            self.row(at + bytes * first, &name, texts.join(" "));
        }
    }

    fn floats(&mut self, part: Part, at: usize, count: usize, name: &str) {
        let numbers: Vec<f32> = (0..count).map(|i| part.float(at + 4 * i)).collect();
        self.list(part.at + at, 4, name, &numbers);
    }

    fn words(&mut self, part: Part, at: usize, count: usize, name: &str) {
        let number = |i: usize| part.word(at + 4 * i) as i32;
        let numbers: Vec<i32> = (0..count).map(number).collect();
        self.list(part.at + at, 4, name, &numbers);
    }

    fn shorts(&mut self, part: Part, at: usize, count: usize, name: &str) {
        let number = |i: usize| part.short(at + 2 * i) as i16;
        let numbers: Vec<i16> = (0..count).map(number).collect();
        self.list(part.at + at, 2, name, &numbers);
    }

    fn settings(&mut self, part: Part) {
        let names = [
            "CIC stages",
            "CIC factor r",
            "FIR taps",
            "FIR factor",
            "half-band depth",
            "phases",
            "taps of a phase",
        ];
        for (i, name) in names.into_iter().enumerate() {
            self.row(part.at + 2 * i, name, part.short(2 * i));
        }
        let phase = ["0, wrapped", "1, straight"][usize::from(part.short(14) != 0)];
        self.row(part.at + 14, "phase", phase);
        self.row(part.at + 16, "step", part.float(16));
        self.row(part.at + 20, "cut values", part.word(20));
    }

    fn half_band(&mut self, parked: &Parked) {
        let part = parked.parts[4];
        for (stage, (at, taps)) in parked.stages().enumerate() {
            let name = |what: &str| format!("stage {stage} {what}");
            self.row(part.at + at, &name("values held"), part.short(at));
            self.row(part.at + at + 2, &name("value held"), part.float(at + 2));
            self.floats(part, at + 6, 4 * taps, &name("delay"));
        }
    }

    fn entry(&mut self, parked: &Parked, k: usize) {
        let (part, numbers) = (parked.parts[k], &parked.numbers);
        match k {
            0 => self.settings(part),
            1 if part.bytes.is_empty() => (),
            1 => {
                self.row(part.at, "sample counter", part.short(0));
                self.words(part, 2, numbers.stages, "integrator");
                self.words(part, 2 + 4 * numbers.stages, numbers.stages, "comb");
            }
            2 => self.shorts(part, 0, numbers.taps, "tap"),
            3 => {
                self.row(part.at, "wait", part.short(0));
                self.shorts(part, 2, numbers.taps, "delay");
            }
            4 => self.half_band(parked),
            5 => self.floats(part, 0, numbers.phases * numbers.phase_taps, "tap"),
            6 => {
                self.row(part.at, "mu", part.float(0));
                self.floats(part, 4, numbers.phase_taps, "delay");
            }
            _ => {
                self.row(part.at, "place", part.short(0));
                self.words(part, 2, numbers.neighbours(), "neighbour");
            }
        }
    }
}

fn table(parked: &Parked, bytes: usize) -> String {
    let count = entries(parked.parts.len());
    let mut table = Table(format!("a parked line: {count} in {bytes} bytes\n"));
    for (k, (name, part)) in NAMES.iter().zip(&parked.parts).enumerate() {
        let size = part.bytes.len();
        let _ = writeln!(table.0, "entry {k}, {name}: {size} bytes");
        table.entry(parked, k);
    }
    table.0
}
