//! `gauge plot`: samples and levels as a drawing.

use crate::axis::Span;
use crate::convert::levels_and_cuts;
use crate::fault::{Fault, front};
use crate::job::{self, Job};
use crate::line_file::LineFile;
use crate::options::Options;
use crate::range::scale;
use crate::section::{first_level, sections, whole};
use crate::svg::{Drawing, Series, Stretch};
use std::ffi::OsString;

const OWN: [&str; 2] = ["--title", "--range"];

/// What levels are in parts of, for a drawing.
pub const LEVEL: &str = "level, in parts of full scale (32768)";

// Units of time in seconds, upward.
const TIMES: [(&str, f64); 6] = [
    ("time, microseconds", 1e-6),
    ("time, milliseconds", 1e-3),
    ("time, seconds", 1.0),
    ("time, minutes", 60.0),
    ("time, hours", 3600.0),
    ("time, days", 86400.0),
];

/// Draws a recording and its levels as the arguments say.
pub fn plot(arguments: &[OsString]) -> Result<(), Fault> {
    let known = [&job::OPTIONS[..], &OWN[..]].concat();
    let options = Options::parse(arguments, &known, "--in")?;
    let range = options.text("--range")?.map(range).transpose()?;
    let name = options.needed("--settings")?;
    let title = options.get("--title").unwrap_or(name).to_string_lossy();
    let mut job = Job::of(&options)?;
    let samples = job.samples.all()?;
    let (levels, cuts) = levels_and_cuts(&mut job.line, &samples)?;
    let across = Across::of(job.rate, range, samples.len());
    let drawing = Drawing {
        cuts: cuts.iter().map(|at| *at as f64 / across.unit).collect(),
        ..drawing(&job.file, &samples, &levels, &title, &across)?
    };
    job.target.write(drawing.svg().as_bytes())?;
    job.target.finish()
}

fn drawing<'a>(
    file: &LineFile,
    samples: &[i32],
    levels: &[f32],
    title: &'a str,
    across: &Across,
) -> Result<Drawing<'a>, Fault> {
    let places = Places::of(file, across.unit)?;
    let drawn = places.levels("levels", "#005a9c", 2.0, levels);
    Ok(Drawing {
        title,
        x_name: across.name,
        whole: across.whole,
        range: across.range,
        y_name: LEVEL,
        note: note(file, samples, levels, &drawn).or_else(|| across.note(&drawn)),
        ends: ends(&drawn.points, scale(file)?),
        series: vec![places.samples(samples), drawn],
        ..Drawing::default()
    })
}

// Why there is no line of levels, where there is none.
fn note(file: &LineFile, samples: &[i32], levels: &[f32], drawn: &Series) -> Option<String> {
    if samples.is_empty() {
        Some("no samples".to_string())
    } else if levels.is_empty() {
        let (first, all) = (first_level(file), samples.len());
        Some(format!(
            "no level: the first comes with sample {first}, and there are {all}"
        ))
    } else if drawn.points.is_empty() {
        Some("every level so far tells of the time before the first sample".to_string())
    } else {
        None
    }
}

// Where levels stand at an end of the scale or past it, from left to right. Half a 32768th is left to rounding.
fn ends(levels: &[(f64, f64)], (least, greatest): (f32, f32)) -> Vec<Stretch> {
    const HALF: f64 = 0.5 / 32768.0;
    let (low, high) = (f64::from(least) + HALF, f64::from(greatest) - HALF);
    let end = |level: f64| match level {
        // A line whose taps leave nothing has no scale.
        _ if low >= high => None,
        _ if level >= high => Some(true),
        _ if level <= low => Some(false),
        _ => None,
    };
    let runs = levels.chunk_by(|a, b| end(a.1) == end(b.1));
    let stretch = |run: &[(f64, f64)]| {
        let upper = end(run[0].1)?;
        let (from, to) = (run[0].0, run[run.len() - 1].0);
        Some(Stretch { from, to, upper })
    };
    runs.filter_map(stretch).collect()
}

/// FROM..TO, either of which may be left out.
pub fn range(value: &str) -> Result<Span, Fault> {
    let end = |text: &str, missing: f64| match text {
        "" => Some(missing),
        _ => text.parse().ok().filter(|end: &f64| end.is_finite()),
    };
    let ends = value.split_once("..");
    let ends = ends.and_then(|(from, to)| Some((end(from, 0.0)?, end(to, f64::INFINITY)?)));
    let wrong = || Fault::usage(format!("--range {} is not FROM..TO, upward", front(value)));
    // Nearer ends would leave places that f64 can't tell.
    let apart = |(from, to): &Span| to - from >= 1e-12 * from.abs().max(1.0);
    ends.filter(apart).ok_or_else(wrong)
}

// The axis across: samples, or the time that is drawn in a unit that suits it.
struct Across {
    name: &'static str,
    whole: bool,
    // Samples in a unit of the axis.
    unit: f64,
    range: Option<Span>,
}

impl Across {
    // A range is in samples, or in seconds where the rate is known, and ends with the recording at the latest.
    fn of(rate: Option<f64>, range: Option<Span>, samples: usize) -> Across {
        let a_unit = rate.unwrap_or(1.0);
        let end = samples.saturating_sub(1) as f64 / a_unit;
        // Behind the end there is still a sample's width to draw, and one that f64 can tell.
        let least = |from: f64| (1.0 / a_unit).max(1e-9 * from.abs());
        let range = range.map(|(from, to)| (from, to.min(end.max(from + least(from)))));
        let length = range.map_or(end, |(from, to)| to - from);
        let suits = |time: &&(&str, f64)| length >= 3.0 * time.1;
        let (name, seconds) = TIMES.iter().rev().find(suits).unwrap_or(&TIMES[0]);
        let (name, seconds) = rate.map_or(("sample", 1.0), |_| (*name, *seconds));
        Across {
            name,
            whole: rate.is_none(),
            unit: a_unit * seconds,
            range: range.map(|(from, to)| (from / seconds, to / seconds)),
        }
    }

    // Whether the range that is drawn has no levels.
    fn note(&self, drawn: &Series) -> Option<String> {
        let (from, to) = self.range?;
        let inside = |point: &(f64, f64)| (from..=to).contains(&point.0);
        let any = drawn.points.iter().any(inside);
        (!any).then(|| "no level in this range".to_string())
    }
}

/// Where the samples and levels of a line stand in a drawing.
pub struct Places {
    first: f64,
    every: f64,
    gain: f64,
    unit: f64,
}

impl Places {
    /// For the line of a settings file, with so many samples to a unit of the axis. A level stands at the sample that it tells of, its delay taken off.
    pub fn of(file: &LineFile, unit: f64) -> Result<Places, Fault> {
        let sections = sections(file).map_err(|refusal| Fault::file("the line", refusal))?;
        let whole = whole(&sections);
        let delay = Some(whole.delay).filter(|delay| delay.is_finite());
        Ok(Places {
            first: first_level(file) as f64 - 1.0 - delay.unwrap_or(0.0),
            every: whole.samples_per_value,
            gain: whole.gain,
            unit,
        })
    }

    /// The samples as levels: in 32768ths, times the gain of the line.
    pub fn samples(&self, samples: &[i32]) -> Series<'static> {
        let level = |sample: &i32| f64::from(*sample) / 32768.0 * self.gain;
        Series {
            name: "samples, times the line's gain",
            colour: "#a9bccb",
            width: 1.0,
            points: samples
                .iter()
                .enumerate()
                .map(|(at, s)| (at as f64 / self.unit, level(s)))
                .collect(),
        }
    }

    /// Levels, without those that tell of the time before the start.
    pub fn levels<'a>(
        &self,
        name: &'a str,
        colour: &'a str,
        width: f64,
        levels: &[f32],
    ) -> Series<'a> {
        let place = |k: usize| (self.first + k as f64 * self.every) / self.unit;
        let points = levels
            .iter()
            .enumerate()
            .map(|(k, level)| (place(k), f64::from(*level)));
        Series {
            name,
            colour,
            width,
            points: points.filter(|(at, _)| *at >= 0.0).collect(),
        }
    }
}

#[cfg(test)]
mod tests {
    use super::*;

    #[test]
    fn a_range_has_two_ends_upward() {
        assert_eq!(range("1..2.5"), Ok((1.0, 2.5)));
        assert_eq!(range("..3"), Ok((0.0, 3.0)));
        assert_eq!(range("3.."), Ok((3.0, f64::INFINITY)));
        for wrong in [
            "",
            "3",
            "2..1",
            "1..1",
            "a..b",
            "nan..",
            "1..inf",
            "1...2",
            "0..1e-300",
        ] {
            assert!(range(wrong).is_err(), "{wrong}");
        }
    }

    #[test]
    fn time_is_told_in_a_unit_that_suits_it() {
        let name = |rate, samples| Across::of(Some(rate), None, samples).name;
        assert_eq!(name(8.0, 345_600), "time, hours");
        assert_eq!(name(8.0, 100), "time, seconds");
        assert_eq!(name(48_000.0, 480), "time, milliseconds");
        assert_eq!(name(1.0, 0), "time, microseconds");
        assert_eq!(Across::of(None, None, 345_600).name, "sample");
        let part = Across::of(Some(8.0), Some((600.0, f64::INFINITY)), 8 * 3600 + 1);
        assert_eq!(
            (part.name, part.range),
            ("time, minutes", Some((10.0, 60.0)))
        );
        for from in [0.0, 9.0, 1e9, 1e300] {
            let behind = Across::of(Some(1e12), Some((from, f64::INFINITY)), 3);
            assert!(behind.range.is_some_and(|(from, to)| from < to), "{from}");
        }
    }

    #[test]
    fn runs_at_the_ends_of_the_scale_are_found() {
        let top = 32767.0 / 32768.0;
        let levels = [0.0, top, top, 1.5, 0.99, -1.0, top, 0.0];
        let levels: Vec<(f64, f64)> = levels
            .iter()
            .enumerate()
            .map(|(k, l)| (k as f64, *l))
            .collect();
        let stretch = |from, to, upper| Stretch { from, to, upper };
        let wanted = [
            stretch(1.0, 3.0, true),
            stretch(5.0, 5.0, false),
            stretch(6.0, 6.0, true),
        ];
        assert_eq!(ends(&levels, (-1.0, top as f32)), wanted);
        assert_eq!(ends(&levels, (0.0, 0.0)), []);
    }
}
