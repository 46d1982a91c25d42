//! What `run` and `plot` begin with: a line, a recording and a place for output.

use crate::begun::Begun;
use crate::fault::{Fault, tell};
use crate::format::Recorded;
use crate::line_file::LineFile;
use crate::options::Options;
use crate::parked::ParkedFile;
use crate::same_file::refuse_same;
use crate::samples::{Reading, Samples};
use crate::target::Target;
use gauge_line::Line;
use std::ffi::OsStr;
use std::path::Path;

/// The options of a job. A recording may also stand without `--in`.
pub const OPTIONS: [&str; 8] = [
    "--settings",
    "--in",
    "--out",
    "--format",
    "--column",
    "--channel",
    "--shift",
    "--rate",
];

// The parked line that a run begins with, in the place of settings.
const RESUME: &str = "--resume";

/// A line, a recording and a place for output.
pub struct Job {
    /// What the settings file says, or the parked line was opened with.
    pub file: LineFile,
    /// The line, opened or taken up.
    pub line: Line,
    /// How far it is.
    pub begun: Begun,
    /// The recording.
    pub samples: Samples,
    /// Samples a second, where it was said or the recording says it.
    pub rate: Option<f64>,
    /// The place for output.
    pub target: Target,
}

impl Job {
    /// The job of these options. Where anything is wrong no file was touched.
    pub fn of(options: &Options) -> Result<Job, Fault> {
        let reading = reading(options)?;
        let rate = options.rate()?;
        let (file, line, begun) = match options.get(RESUME) {
            Some(parked) => taken_up(options, Path::new(parked))?,
            None => {
                let (file, line) = opened(options)?;
                let begun = Begun::opened(&file);
                (file, line, begun)
            }
        };
        let out = output(options);
        refuse_same("--out", out, &inputs(options, &file))?;
        let samples = Samples::open(recording(options), reading)?;
        check_format(samples.format, reading)?;
        Ok(Job {
            target: Target::create(out)?,
            rate: rate.or(samples.rate).or(file.rate),
            file,
            line,
            begun,
            samples,
        })
    }
}

/// The settings file of these options and its line. What it sets for nothing is told.
pub fn opened(options: &Options) -> Result<(LineFile, Line), Fault> {
    let file = LineFile::read(options.needed("--settings")?)?;
    let line = file.open()?;
    file.warnings().iter().for_each(tell);
    Ok((file, line))
}

// The line of a parked sheet, which has its own settings.
fn taken_up(options: &Options, parked: &Path) -> Result<(LineFile, Line, Begun), Fault> {
    if options.get("--settings").is_some() {
        let what = "--settings beside --resume; a parked line has its own settings";
        return Err(Fault::usage(what));
    }
    let sheet = ParkedFile::read(parked)?;
    let (line, fields) = sheet.taken_up()?;
    Ok((fields.line_file(parked), line, Begun::taken_up(&fields)))
}

fn reading(options: &Options) -> Result<Reading<'_>, Fault> {
    let column = options.text("--column")?;
    // Only CSV has columns.
    let format = options.text("--format")?.or(column.and(Some("csv")));
    Ok(Reading {
        format: format.map(Recorded::named).transpose()?,
        column,
        channel: options.whole("--channel", 1, usize::from(u16::MAX))?,
        shift: options.whole("--shift", 0, 31)?.unwrap_or(0) as u32,
    })
}

/// The place for a parked line, where one is wanted. It may be the file that the line was taken up from.
pub fn park_target(options: &Options, file: &LineFile) -> Result<Option<Target>, Fault> {
    let Some(name) = options.get("--park") else {
        return Ok(None);
    };
    let out = output(options);
    if name == out {
        let name = name.to_string_lossy();
        let what = format!("--park {name} is where the levels go");
        return Err(Fault::usage(what));
    }
    let mut others = inputs(options, file);
    others.retain(|(what, _)| *what != RESUME);
    if out != "-" {
        others.push(("--out", out));
    }
    refuse_same("--park", name, &others)?;
    Target::create(name).map(Some)
}

fn recording(options: &Options) -> &OsStr {
    options.get("--in").unwrap_or("-".as_ref())
}

fn output(options: &Options) -> &OsStr {
    options.get("--out").unwrap_or("-".as_ref())
}

// The files that a job reads, each with what it is.
fn inputs<'a>(options: &'a Options, file: &'a LineFile) -> Vec<(&'static str, &'a OsStr)> {
    let own = options.get(RESUME).map_or("--settings", |_| RESUME);
    let numbers = "the settings' numbers";
    let files = file.files.iter().map(|path| path.as_os_str());
    let mut inputs = vec![("--in", recording(options))];
    inputs.extend([own, numbers, numbers].into_iter().zip(files));
    inputs
}

fn check_format(format: Recorded, reading: Reading) -> Result<(), Fault> {
    if reading.column.is_some() && format != Recorded::Csv {
        return Err(Fault::usage("--column is for --format csv"));
    }
    if reading.channel.is_some() && format != Recorded::Wav {
        return Err(Fault::usage("--channel is for a WAV file"));
    }
    Ok(())
}
