//! A response as a drawing: above, what levels show, with the strongest alias; below, what is let through of each frequency of the samples.

use crate::rate::{Unit, short};
use crate::response::decibels;
use crate::response_command::{Asked, levels};
use crate::svg::{Drawing, Series, stacked};

// Below this, in dB, a level is drawn at the lower edge.
const FLOOR: f64 = -140.0;
// Places along the axis: of aliases, which take long to find, of sections, of the line.
const ALIASES: usize = 240;
const PLACES: usize = 800;
const FINE_PLACES: usize = 3200;
// How far below half the rate of levels the lower drawing begins.
const SLOWEST: f64 = 0.01;
// Sections lie below the line, and are seen beside it.
const WIDE: f64 = 4.5;
// So many tenfolds have room for 2 and 5 between them.
const FEW_TENFOLDS: f64 = 3.2;

const LINE: &str = "#005a9c";
const ALIAS: &str = "#d62728";
// What a section is called, and its colour.
const SECTIONS: [(&str, &str, &str); 4] = [
    ("cic", "CIC decimator", "#c4c4c4"),
    ("fir", "FIR", "#9ed9b5"),
    ("half_band", "half-band cascade", "#cdb4e4"),
    ("resampler", "resampler", "#f2cf8c"),
];

/// The drawing of a response, as SVG.
pub fn drawing(asked: &Asked, name: &str) -> String {
    let x_name = match asked.unit {
        Unit::Sample => "frequency, cycles a sample",
        Unit::Second(_) => "frequency, Hz",
    };
    let shown = format!("{name}: what levels show");
    let passed = format!("{name}: what is let through");
    let above = Drawing {
        title: &shown,
        x_name,
        y_name: "dB",
        mark: asked.stop.map(|stop| (asked.told(stop), "stopband")),
        series: in_levels(asked),
        ..Drawing::default()
    };
    let half = half_rate(asked);
    let below = Drawing {
        title: &passed,
        x_name,
        y_name: "dB",
        ticks: ticks(asked.told(SLOWEST * half), asked.told(0.5)),
        mark: Some((asked.told(half).log10(), "half the rate of levels")),
        series: in_samples(asked),
        ..Drawing::default()
    };
    stacked(&[above, below])
}

// Half the rate of levels, in cycles a sample, where that is not more than samples have.
fn half_rate(asked: &Asked) -> f64 {
    (0.5 / asked.response.samples_per_level()).min(0.5)
}

fn level(factor: f64) -> f64 {
    decibels(factor).max(FLOOR)
}

fn series<'a>(name: &'a str, colour: &'a str, width: f64, points: Vec<(f64, f64)>) -> Series<'a> {
    Series {
        name,
        colour,
        width,
        points,
    }
}

// Evenly from one frequency to another.
fn even(from: f64, to: f64, count: usize) -> impl Iterator<Item = f64> {
    (0..=count).map(move |k| from + (to - from) * k as f64 / count as f64)
}

// In even ratios.
fn ratios(from: f64, to: f64, count: usize) -> impl Iterator<Item = f64> {
    even(from.ln(), to.ln(), count).map(f64::exp)
}

// Over the frequencies of levels: the sections, the strongest alias, the line.
fn in_levels(asked: &Asked) -> Vec<Series<'static>> {
    let (response, half) = (&asked.response, half_rate(asked));
    let mut all = Vec::new();
    for (key, name, colour) in on(asked) {
        let waves = even(0.0, half, PLACES);
        let points = waves.map(|at| (asked.told(at), level(of_section(asked, key, at))));
        all.push(series(name, colour, WIDE, points.collect()));
    }
    // The more waves come back at each place, the fewer places.
    let folds = response.samples_per_value() / response.samples_per_sum();
    let places = (1e6 / folds).clamp(24.0, ALIASES as f64) as usize;
    let aliases = even(0.0, half, places);
    let aliases = aliases.map(|at| (asked.told(at), level(response.alias(at).level)));
    all.push(series("strongest alias", ALIAS, 1.6, aliases.collect()));
    let line = even(0.0, half, PLACES).map(|at| (asked.told(at), level(response.line(at))));
    all.push(series("line", LINE, 1.8, line.collect()));
    all
}

// Over the frequencies of samples: each section up to half the rate of what it takes, where it begins to repeat, and the line.
fn in_samples(asked: &Asked) -> Vec<Series<'static>> {
    let (response, half) = (&asked.response, half_rate(asked));
    let slowest = SLOWEST * half;
    let mut all = Vec::new();
    for (key, name, colour) in on(asked) {
        let rate = match key {
            "cic" => 1.0,
            "fir" => response.samples_per_sum(),
            "half_band" => response.samples_per_filtered(),
            _ => response.samples_per_value(),
        };
        let waves = ratios(slowest, 0.5 / rate, PLACES);
        let points = waves.map(|at| (asked.told(at).log10(), level(of_section(asked, key, at))));
        all.push(series(name, colour, WIDE, points.collect()));
    }
    let line = |from: f64, to: f64| {
        let waves = ratios(from, to, FINE_PLACES);
        let points = waves.map(|at| (asked.told(at).log10(), level(response.line(at))));
        points.collect()
    };
    if half < 0.5 {
        let name = "line, waves that come back as slower ones";
        all.push(series(name, ALIAS, 1.0, line(half, 0.5)));
    }
    all.push(series("line", LINE, 1.8, line(slowest, half)));
    all
}

// The sections that are on.
fn on(asked: &Asked) -> Vec<(&'static str, &'static str, &'static str)> {
    let keys: Vec<&str> = levels(&asked.response, 0.0).iter().map(|on| on.0).collect();
    let sections = SECTIONS.into_iter();
    sections
        .filter(|section| keys.contains(&section.0))
        .collect()
}

fn of_section(asked: &Asked, key: &str, frequency: f64) -> f64 {
    let levels = levels(&asked.response, frequency);
    let own = levels.iter().find(|level| level.0 == key);
    own.map_or(0.0, |level| level.1)
}

// Round numbers of an axis in even ratios, each at its logarithm.
fn ticks(from: f64, to: f64) -> Vec<(f64, String)> {
    let (low, high) = (from.log10(), to.log10());
    let digits: &[f64] = match high - low < FEW_TENFOLDS {
        true => &[1.0, 2.0, 5.0],
        false => &[1.0],
    };
    let tenfolds = low.floor() as i32..=high.floor() as i32;
    let numbers = tenfolds.flat_map(|power| digits.iter().map(move |d| d * 10f64.powi(power)));
    let inside = numbers.filter(|number| (0.999 * from..=1.001 * to).contains(number));
    inside
        .map(|number| (number.log10(), short(number)))
        .collect()
}
