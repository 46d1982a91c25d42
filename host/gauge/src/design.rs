//! A line for a wish: plans are tried, the simplest first, until one has numbers that keep it.

use crate::figures::{Passband, Stopband, images, passband, stopband};
use crate::kaiser::prototype;
use crate::least_squares::{Goal, fitted, rounded};
use crate::line_file::LineFile;
use crate::plans::{Edge, PARTS, Plan, Wish, allowed, plans, prototype_taps, transition};
use crate::response::Response;
use gauge_line::limits::{LEAST_PHASES, MOST_TAPS};
use gauge_line::{Line, Phase, Settings};
use std::path::Path;

// Plans that are tried.
const TRIES: usize = 8;
// What is missed by more than this part of what is allowed is not looked at again.
const MOST_MISSED: f64 = 1.05;
// A part of what is allowed is left to rounding.
const OWN_SHARE: f64 = 0.97;
// Places of the passband, and the most of the stopband, that a FIR is fitted to.
const PASSBAND_PLACES: usize = 64;
const STOPBAND_PLACES: f64 = 1500.0;

/// A line, and what it does.
pub struct Design {
    /// Its settings, taps and prototype.
    pub file: LineFile,
    /// What parts its bands.
    pub edge: Edge,
    /// Its passband.
    pub passband: Passband,
    /// Its stopband.
    pub stopband: Stopband,
    /// The strongest image of what it lets through, where it has a resampler.
    pub images: Option<f64>,
}

impl Design {
    fn of(file: LineFile, wish: &Wish, edge: Edge) -> Option<Design> {
        Line::open(file.settings, &file.taps, &file.prototype).ok()?;
        let response = Response::of(&file).ok()?;
        Some(Design {
            passband: passband(&response, wish.pass),
            stopband: stopband(&response, wish.stop),
            images: images(&response, wish.stop),
            file,
            edge,
        })
    }

    // Whether it keeps the wish.
    fn keeps(&self, wish: &Wish) -> bool {
        let passes = self.passband.greatest.max(-self.passband.least) <= wish.ripple;
        let stops = self
            .stopband
            .greatest
            .max(self.images.unwrap_or(f64::NEG_INFINITY));
        passes && stops <= -wish.reject
    }
}

/// The simplest line that keeps a wish, where one of the plans tried has it.
pub fn designed(wish: &Wish) -> Option<Design> {
    let plans = plans(wish).into_iter().take(TRIES);
    let mut designs = plans.filter_map(|plan| tried(wish, &plan));
    designs.find(|design| design.keeps(wish))
}

// A plan with the fewest taps that will do.
fn tried(wish: &Wish, plan: &Plan) -> Option<Design> {
    // A FIR that neither thins nor mends anything is left out.
    let none = (plan.factor == 1)
        .then(|| without_fir(wish, plan))
        .flatten();
    if let Some(design) = none.filter(|design| design.keeps(wish)) {
        return Some(design);
    }
    let most = (MOST_TAPS - 1) / 2;
    // What the most taps miss fewer do too.
    fir(wish, plan, most)?;
    let least = ((0.75 * plan.taps / 2.0) as usize).clamp(1, most);
    let more = |sides: &usize| Some(sides + 1 + sides / 12);
    let sides = std::iter::successors(Some(least), more);
    let sides = sides.take_while(|sides| *sides < most).chain([most]);
    let mut designs = sides.filter_map(|sides| with_fir(wish, plan, sides));
    designs.find(|design| design.keeps(wish))
}

// Only where a steady sample keeps its level.
fn without_fir(wish: &Wish, plan: &Plan) -> Option<Design> {
    let file = line_file(wish, plan, Vec::new());
    let gain = Response::of(&file).ok()?.line(0.0);
    let keeps = (gain - 1.0).abs() < 1e-6;
    keeps.then(|| Design::of(file, wish, plan.edge)).flatten()
}

fn with_fir(wish: &Wish, plan: &Plan, sides: usize) -> Option<Design> {
    let taps = rounded(&fir(wish, plan, sides)?)?;
    Design::of(line_file(wish, plan, taps), wish, plan.edge)
}

// The taps of a FIR so long, where they miss no goal by much.
fn fir(wish: &Wish, plan: &Plan, sides: usize) -> Option<Vec<f64>> {
    // One tap stands for the FIR, so that what is behind it has its rate.
    let half = line_file(wish, plan, vec![16384]);
    let rest = Response::of(&half).ok()?;
    let goals = goals(wish, plan, &rest, sides);
    let (taps, missed) = fitted(&goals, sides, 0.5 / rest.line(0.0));
    (missed <= MOST_MISSED).then_some(taps)
}

// What the FIR shall do: with the other sections pass the passband as it is, and let nothing of the stopband through.
fn goals(wish: &Wish, plan: &Plan, rest: &Response, sides: usize) -> Vec<Goal> {
    let (ripple, stop) = allowed(wish);
    let r = plan.r as f64;
    let goal = |at: f64, wanted: f64, allowed: f64| Goal {
        frequency: at * r,
        rest: 2.0 * rest.line(at),
        wanted,
        allowed: OWN_SHARE * allowed,
    };
    let even = |from: f64, to: f64, count: usize| {
        (0..=count).map(move |k| from + (to - from) * k as f64 / count as f64)
    };
    let passband = even(0.0, wish.pass, PASSBAND_PLACES).map(|at| goal(at, 1.0, ripple));
    let to = 0.5 / r;
    let fine = 6.0 * (to - wish.stop).max(0.0) * (rest.reach() + 2.0 * sides as f64 * r);
    let count = fine.clamp(128.0, STOPBAND_PLACES) as usize;
    let stopband = even(wish.stop, to, count).filter(|at| *at <= to);
    // What the others hold off the FIR need not, but it shall not double it either.
    let stopband = stopband.map(|at| goal(at, 0.0, stop)).map(|goal| Goal {
        rest: goal.rest.max(0.5 * stop),
        ..goal
    });
    passband.chain(stopband).collect()
}

fn line_file(wish: &Wish, plan: &Plan, taps: Vec<i16>) -> LineFile {
    let (phases, phase_taps, prototype) = resampler(wish, plan);
    let settings = Settings {
        stages: plan.stages,
        r: plan.r,
        factor: if taps.is_empty() { 0 } else { plan.factor },
        depth: plan.depth,
        phases,
        phase_taps,
        phase: Phase::Wrapped,
        step: if phases == 0 {
            0.0
        } else {
            plan.step as f32 / PARTS as f32
        },
        ..Settings::default()
    };
    LineFile::parked(Path::new("the design"), settings, taps, prototype)
}

// Phases, taps of a phase and prototype of a plan's resampler; nothing where it has none.
fn resampler(wish: &Wish, plan: &Plan) -> (usize, usize, Vec<f32>) {
    if !plan.resamples() {
        return (0, 0, Vec::new());
    }
    let value = plan.samples_per_value();
    // So few phases as make the step whole.
    let phases = (PARTS >> plan.step.trailing_zeros().min(PARTS.trailing_zeros())) as usize;
    let phases = phases.max(LEAST_PHASES);
    let taps = prototype_taps(wish, plan.edge, value);
    let (pass, stop) = transition(wish, plan.edge, value);
    let middle = (pass + stop) / 2.0;
    (
        phases,
        taps,
        prototype(phases, taps, middle, wish.reject + 2.0),
    )
}
