//! `gauge run`: recorded samples to levels.

use crate::convert::feed_piece;
use crate::fault::Fault;
use crate::format::Format;
use crate::job::{self, Job};
use crate::levels::{Levels, Moments};
use crate::options::Options;
use crate::progress::Progress;
use crate::samples::Samples;
use crate::tally::Tally;
use crate::target::Target;
use gauge_line::Line;
use std::ffi::OsString;

const OWN: [&str; 5] = ["--out-format", "--piece", "--span", "--resume", "--park"];

// Samples of a piece and places of a span where none are asked for.
const DEFAULT: usize = 4096;

/// Converts a recording as the arguments say, and tells what came of it.
pub fn run(arguments: &[OsString]) -> Result<(), Fault> {
    let known = [&job::OPTIONS[..], &OWN[..]].concat();
    let options = Options::parse(arguments, &known, "--in")?;
    let format = options
        .text("--out-format")?
        .map(Format::named)
        .transpose()?;
    let piece = options.count("--piece", DEFAULT)?;
    let span = options.count("--span", DEFAULT)?;
    let mut job = Job::of(&options)?;
    let park = job::park_target(&options, &job.file)?;
    let mut tally = Tally::of(&job.file, &job.begun)?;
    let moments = Moments::of(&job.file, &job.begun, job.rate)?;
    let format = format.unwrap_or(job.samples.format.levels());
    let levels = Levels::to(job.target, format).at(moments);
    let lengths = (piece, span);
    convert(&mut job.line, job.samples, levels, lengths, &mut tally)?;
    if let Some(target) = park {
        write_parked(&job.line, target)?;
    }
    tally.tell();
    Ok(())
}

fn write_parked(line: &Line, mut target: Target) -> Result<(), Fault> {
    let mut sheet = [0; Line::MOST_PARKED];
    let length = line
        .park(&mut sheet)
        .map_err(|refusal| Fault::file("the line", refusal))?;
    target.write(&sheet[..length])?;
    target.finish()
}

fn convert(
    line: &mut Line,
    mut samples: Samples,
    mut levels: Levels,
    (most, places): (usize, usize),
    tally: &mut Tally,
) -> Result<(), Fault> {
    let mut progress = Progress::start();
    let mut piece = Vec::new();
    let mut span = vec![0.0; places];
    loop {
        samples.read(&mut piece, most)?;
        if piece.is_empty() {
            return levels.finish();
        }
        feed_piece(line, &piece, &mut span, |written| {
            tally.write(written);
            levels.write(written)
        })?;
        levels.pass_on()?;
        tally.take(&piece, line.cuts());
        progress.tell(tally.samples(), samples.part_read());
    }
}
