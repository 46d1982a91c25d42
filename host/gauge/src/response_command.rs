//! `gauge response`: how strong a line and its sections let waves through, as a table and as a drawing.

use crate::axis::Span;
use crate::bands::{told_images, told_passband, told_stopband};
use crate::fault::Fault;
use crate::figures::{images, passband, stopband};
use crate::job::opened;
use crate::line_file::LineFile;
use crate::options::Options;
use crate::plot::range;
use crate::rate::{Unit, short};
use crate::response::{Response, decibels};
use crate::response_drawing::drawing;
use crate::same_file::refuse_same;
use crate::target::Target;
use std::ffi::{OsStr, OsString};

const OPTIONS: [&str; 8] = [
    "--settings",
    "--rate",
    "--pass",
    "--stop",
    "--points",
    "--range",
    "--svg",
    "--out",
];
// Rows of the table, where they are not given.
const POINTS: usize = 33;

/// A line, and the frequencies that are asked about, in cycles a sample.
pub struct Asked {
    /// The line as filters.
    pub response: Response,
    /// What frequencies are told in.
    pub unit: Unit,
    /// The end of the passband.
    pub pass: Option<f64>,
    /// The edge of the stopband.
    pub stop: Option<f64>,
}

impl Asked {
    /// A frequency in the unit.
    pub fn told(&self, cycles: f64) -> f64 {
        match self.unit {
            Unit::Sample => cycles,
            Unit::Second(rate) => cycles * rate,
        }
    }
}

/// Prints the response of the settings file of the arguments.
pub fn response(arguments: &[OsString]) -> Result<(), Fault> {
    let options = Options::parse(arguments, &OPTIONS, "--settings")?;
    let points = options.whole("--points", 2, 100_000)?.unwrap_or(POINTS);
    let own_range = options.text("--range")?.map(range).transpose()?;
    let out = options.get("--out").unwrap_or("-".as_ref());
    let (file, _) = opened(&options)?;
    let asked = asked(&options, &file)?;
    let range = drawn_range(&asked, own_range)?;
    let name = options.needed("--settings")?;
    check_targets(&options, &file, out)?;
    let text = table(&asked, range, points);
    if let Some(svg) = options.get("--svg") {
        let title = name.to_string_lossy();
        print(svg, drawing(&asked, &title).as_bytes())?;
    }
    print(out, text.as_bytes())
}

fn print(out: &OsStr, bytes: &[u8]) -> Result<(), Fault> {
    let mut target = Target::create(out)?;
    target.write(bytes)?;
    target.finish()
}

fn asked(options: &Options, file: &LineFile) -> Result<Asked, Fault> {
    let unit = Unit::of(options.rate()?.or(file.rate));
    let a_sample = match unit {
        Unit::Sample => 1.0,
        Unit::Second(rate) => rate,
    };
    let wanted = match unit {
        Unit::Sample => "above 0 and at most 0.5 cycles a sample",
        Unit::Second(_) => "above 0 and at most half the samples a second",
    };
    let edge = |name: &str| options.number(name, 1e-12 * a_sample..=0.5 * a_sample, wanted);
    let response = Response::of(file).map_err(|refusal| Fault::file("the line", refusal))?;
    Ok(Asked {
        response,
        unit,
        pass: edge("--pass")?.map(|pass| pass / a_sample),
        stop: edge("--stop")?.map(|stop| stop / a_sample),
    })
}

// Neither the table nor the drawing takes the place of what is read, or of the other.
fn check_targets(options: &Options, file: &LineFile, out: &OsStr) -> Result<(), Fault> {
    let files = file.files.iter().map(|path| path.as_os_str());
    let read: Vec<(&str, &OsStr)> = files.map(|path| ("the settings", path)).collect();
    refuse_same("--out", out, &read)?;
    let Some(svg) = options.get("--svg") else {
        return Ok(());
    };
    if svg == out {
        let what = format!("--svg {} is where the table goes", svg.to_string_lossy());
        return Err(Fault::usage(what));
    }
    refuse_same("--svg", svg, &read)
}

// The frequencies of the table: those that levels can have, where no others are asked for.
fn drawn_range(asked: &Asked, range: Option<Span>) -> Result<Span, Fault> {
    let levels = 0.5 / asked.response.samples_per_level();
    let Some((from, to)) = range else {
        return Ok((0.0, levels.min(0.5)));
    };
    let unit = asked.told(1.0);
    let (from, to) = (from / unit, (to / unit).min(0.5));
    if from < 0.0 || from >= to {
        let what = "--range is not within 0 and half the rate of samples";
        return Err(Fault::usage(what));
    }
    Ok((from, to))
}

// What was asked of passband and stopband, then a row for each frequency.
fn table(asked: &Asked, (from, to): Span, points: usize) -> String {
    let mut text = String::new();
    for line in figures(asked) {
        text += &format!("# {line}\n");
    }
    text += &heads(asked).join("\t");
    text.push('\n');
    for k in 0..points {
        let frequency = from + (to - from) * k as f64 / (points - 1) as f64;
        text += &row(asked, frequency).join("\t");
        text.push('\n');
    }
    text
}

fn figures(asked: &Asked) -> Vec<String> {
    let (response, unit) = (&asked.response, asked.unit);
    let pass = asked.pass;
    let pass = pass.map(|pass| told_passband(unit, pass, &passband(response, pass)));
    let stop = asked.stop;
    let images = stop.and_then(|to| Some(told_images(unit, to, images(response, to)?)));
    let stop = stop.map(|stop| told_stopband(unit, stop, &stopband(response, stop)));
    [pass, stop, images].into_iter().flatten().collect()
}

/// The sections that are on, by name, each with what it multiplies a wave by.
pub fn levels(response: &Response, frequency: f64) -> Vec<(&'static str, f64)> {
    let levels = [
        ("cic", Some(response.cic(frequency))),
        ("fir", response.fir(frequency)),
        ("half_band", response.half_band(frequency)),
        ("resampler", response.resampler(frequency)),
    ];
    let on = levels.into_iter();
    on.filter_map(|(name, level)| Some((name, level?)))
        .collect()
}

fn heads(asked: &Asked) -> Vec<&'static str> {
    let unit = match asked.unit {
        Unit::Sample => "cycles",
        Unit::Second(_) => "hertz",
    };
    let sections = levels(&asked.response, 0.0)
        .into_iter()
        .map(|level| level.0);
    let behind = ["line", "shows_at", "alias", "alias_from"];
    [unit].into_iter().chain(sections).chain(behind).collect()
}

fn row(asked: &Asked, frequency: f64) -> Vec<String> {
    let response = &asked.response;
    let told = |cycles: f64| short(asked.told(cycles));
    // Without the -0 that rounding would leave.
    let level = |factor: f64| format!("{:.3}", (decibels(factor) * 1e3).round() / 1e3 + 0.0);
    let sections = levels(response, frequency).into_iter();
    let mut row = vec![told(frequency)];
    row.extend(sections.map(|(_, factor)| level(factor)));
    row.push(level(response.line(frequency)));
    row.push(told(response.shows_at(frequency)));
    // Levels have no faster waves.
    let is_of_levels = 2.0 * frequency * response.samples_per_level() <= 1.0 + 1e-9;
    let alias = is_of_levels.then(|| response.alias(frequency));
    match alias.filter(|alias| alias.level > 0.0) {
        Some(alias) => row.extend([level(alias.level), told(alias.from)]),
        None => row.extend(["-".to_string(), "-".to_string()]),
    }
    row
}
