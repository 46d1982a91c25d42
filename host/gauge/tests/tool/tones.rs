//! Waves run through a line, and what of them is in its levels.

use gauge::convert::levels_of;
use gauge::line_file::LineFile;
use gauge::range::exact;
use gauge::response::Response;
use std::f64::consts::TAU;

/// Levels that are listened to.
pub const LEVELS: usize = 1500;
/// One step of 16 bits, in parts of the waves that are sent.
pub const STEP: f64 = 1.0 / 30_000.0;

/// What is heard of a wave.
#[derive(Clone, Copy, Debug)]
pub struct Heard {
    /// How strong it is, in parts of what was sent.
    pub level: f64,
    /// Where in its turn it is at level 0, in turns.
    pub turns: f64,
}

/// Sends a wave of so many cycles a sample, and listens at a frequency of the levels, in cycles a sample too.
pub fn heard(file: &LineFile, sent: f64, shows_at: f64) -> Heard {
    let response = Response::of(file).unwrap();
    let every = response.samples_per_level();
    let skipped = (response.reach() / every) as usize + 20;
    let samples = (every * (skipped + LEVELS) as f64) as usize + response.reach() as usize;
    let (_, most) = exact(file.settings.stages, file.settings.r).unwrap();
    let size = (most as f64).min(1.0 / STEP);
    let wave = |at: usize| (size * (TAU * sent * at as f64).cos()).round() as i32;
    let wave: Vec<i32> = (0..samples).map(wave).collect();
    let levels = levels_of(&mut file.open().unwrap(), &wave).unwrap();
    let levels = &levels[skipped..skipped + LEVELS];
    // Under a window of von Hann, so that other waves are not heard.
    let (mut re, mut im, mut all) = (0.0, 0.0, 0.0);
    for (k, level) in levels.iter().enumerate() {
        let window = 1.0 - (TAU * (k as f64 + 0.5) / LEVELS as f64).cos();
        let (sin, cos) = (TAU * shows_at * every * (k + skipped) as f64).sin_cos();
        re += window * cos * f64::from(*level);
        im -= window * sin * f64::from(*level);
        all += window;
    }
    Heard {
        level: 2.0 * f64::hypot(re, im) / all * 32768.0 / size,
        turns: im.atan2(re) / TAU,
    }
}

pub fn decibels(level: f64) -> f64 {
    20.0 * level.log10()
}
