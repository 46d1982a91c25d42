//! `gauge phases`: the numbers of a prototype phase by phase, one phase a row, and back.

use crate::fault::Fault;
use crate::line_file::LineFile;
use crate::numbers::in_text;
use crate::options::Options;
use crate::reason::{refused, wanted};
use crate::same_file::refuse_same;
use crate::target::Target;
use crate::text::read_small;
use gauge_line::limits::{LEAST_PHASES, MOST_PHASE_TAPS, MOST_PHASES};
use gauge_line::{Refusal, prototype_by_phase, prototype_by_tap};
use std::ffi::{OsStr, OsString};
use std::path::Path;

const OPTIONS: [&str; 5] = ["--in", "--settings", "--phases", "--phase-taps", "--out"];

/// Which way the numbers go.
#[derive(Clone, Copy, PartialEq, Eq)]
enum Way {
    /// To one phase a row.
    ByPhase,
    /// To one tap of every phase a row, as a resampler reads them.
    ByTap,
}

/// Does what the arguments behind `phases` ask for.
pub fn phases(arguments: &[OsString]) -> Result<(), Fault> {
    let (way, rest) = way(arguments)?;
    let options = Options::parse(&rest, &OPTIONS, "--in")?;
    let file = Path::new(options.needed("--in")?);
    let out = options.get("--out").unwrap_or("-".as_ref());
    let (phases, taps) = size(&options)?;
    refuse_same("--out", out, &inputs(&options, file))?;
    let text = read_small(file).map_err(|why| Fault::file(file, why))?;
    let numbers: Vec<f32> = in_text(file, &text, "a line without prototype")?;
    let laid = rearranged(way, phases, taps, &numbers)
        .map_err(|refusal| Fault::file(file, why(refusal, numbers.len(), phases, taps)))?;
    let long = if way == Way::ByPhase { taps } else { phases };
    let mut target = Target::create(out)?;
    target.write(rows(&laid, long).as_bytes())?;
    target.finish()
}

// The way, and the arguments that have values.
fn way(arguments: &[OsString]) -> Result<(Way, Vec<OsString>), Fault> {
    let (ways, rest): (Vec<&OsString>, Vec<&OsString>) = arguments
        .iter()
        .partition(|argument| *argument == "--by-phase" || *argument == "--by-tap");
    let [way] = ways[..] else {
        return Err(Fault::usage("phases wants either --by-phase or --by-tap"));
    };
    let way = if way == "--by-phase" {
        Way::ByPhase
    } else {
        Way::ByTap
    };
    Ok((way, rest.into_iter().cloned().collect()))
}

// Phases and their taps, as given or as a settings file has them.
fn size(options: &Options) -> Result<(usize, usize), Fault> {
    let given = (
        options.whole("--phases", 0, usize::MAX)?,
        options.whole("--phase-taps", 0, usize::MAX)?,
    );
    match (options.get("--settings"), given) {
        (Some(file), (None, None)) => {
            let settings = LineFile::read(file)?.settings;
            Ok((settings.phases, settings.phase_taps))
        }
        (None, (Some(phases), Some(taps))) => Ok((phases, taps)),
        _ => {
            let what = "phases wants either --settings or both --phases and --phase-taps";
            Err(Fault::usage(what))
        }
    }
}

fn inputs<'a>(options: &'a Options, file: &'a Path) -> Vec<(&'static str, &'a OsStr)> {
    let settings = options.get("--settings").map(|name| ("--settings", name));
    let own = ("the prototype", file.as_os_str());
    settings.into_iter().chain([own]).collect()
}

fn rearranged(way: Way, phases: usize, taps: usize, numbers: &[f32]) -> Result<Vec<f32>, Refusal> {
    let mut laid = vec![0.0; numbers.len()];
    match way {
        Way::ByPhase => prototype_by_phase(phases, taps, numbers, &mut laid)?,
        Way::ByTap => prototype_by_tap(phases, taps, numbers, &mut laid)?,
    };
    Ok(laid)
}

fn why(refusal: Refusal, given: usize, phases: usize, taps: usize) -> String {
    let why = match refusal {
        Refusal::Prototype => wanted(given, phases, taps),
        _ => format!(
            "{phases} phases of {taps} taps; {LEAST_PHASES} to {MOST_PHASES} of 1 to {MOST_PHASE_TAPS}"
        ),
    };
    refused(refusal, &why)
}

// So many numbers a line.
fn rows(numbers: &[f32], long: usize) -> String {
    let row = |row: &[f32]| {
        let words: Vec<String> = row.iter().map(f32::to_string).collect();
        words.join(" ") + "\n"
    };
    numbers.chunks(long).map(row).collect()
}
