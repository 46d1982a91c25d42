//! Cases of the gauge line.

use crate::calls::Buffers;
use crate::case::{Case, Cases};
use crate::cic_decimator;
use crate::field::Fields;
use crate::fir_decimator;
use crate::gauge_line::Line;
use crate::hbf_stream;
use crate::lent::{Lent, Slice};
use crate::line_calls::{FEED, Next, OPEN, RESET, STEP};
use crate::line_damage;
use crate::line_feeds;
use crate::line_samples;
use crate::line_settings::{self, BAD_STEPS};
use crate::polyphase_resamp;
use crate::rng::Rng;
use crate::samples;
use crate::settings;

fn some_case(rng: &mut Rng) -> Box<dyn Case> {
    match rng.below(8) {
        0 => OPEN.of(line_settings::good(rng)).0,
        1 => OPEN.of(line_settings::spoilt(rng)).0,
        2 => line_damage::some_case(rng),
        _ => line_feeds::some_case(rng),
    }
}

pub fn cases(rng: &mut Rng) -> Cases {
    vec![some_case(rng)]
}

/// A FIR factor whose low 32 bits are a factor: refused at the opening, and by every call on a line that has it.
fn wide_factor(taps: u64, low: u64) -> Cases {
    let wide = (1 << 32) + low;
    let (opening, _) = OPEN.of(line_settings::fir_alone(taps, wide));
    let mut line = Line::opened(&line_settings::fir_alone(taps, low));
    line.fir.factor = wide;
    let samples = || Lent::pattern(taps + 1, 1, 1);
    let next = Next {
        samples: samples().into(),
        at: 0,
        places: 1,
    };
    vec![
        opening,
        FEED.on(&mut line, Buffers::of(samples(), Lent::pattern(2, 0, 0))),
        STEP.on(&mut line, next),
        RESET.on(&mut line, ()),
    ]
}

/// A count of cut values that is lent shortly before its end, and a history that takes it there and on: feeds of samples that sections 2 and 3 cut, a step, a reset.
fn held_count(left: u32) -> Cases {
    let mut line = Line::opened(&line_settings::fir_alone(4, 1));
    line.cuts = u32::MAX - left;
    let samples = || Lent::pattern(3, 1 << 20, 0);
    let mut cases: Cases = (0..4)
        .map(|_| FEED.on(&mut line, Buffers::of(samples(), Lent::pattern(3, 0, 0))))
        .collect();
    let next = Next {
        samples: samples().into(),
        at: 0,
        places: 1,
    };
    cases.extend([STEP.on(&mut line, next), RESET.on(&mut line, ())]);
    cases
}

/// What chance would leave out.
pub fn fixed() -> Cases {
    let mut cases = fir_factors();
    cases.extend((0..20).flat_map(held_count));
    cases
}

/// Factors of 2^32 and more with taps, which a factor of 32 bits would take for small ones.
fn fir_factors() -> Cases {
    let lows = [1, 2, 3, 127, 128, 129, 4095, 4096];
    [1, 2, fir_decimator::MOST_TAPS]
        .into_iter()
        .flat_map(|taps| lows.map(|low| wide_factor(taps, low)))
        .flatten()
        .collect()
}

/// None, any count, one that is about to hold, and one that holds.
fn some_cuts(rng: &mut Rng) -> u32 {
    match rng.below(4) {
        0 => 0,
        1 => rng.next() as u32,
        _ => u32::MAX - rng.below(4) as u32,
    }
}

/// A valid line with anything in its arrays, and in what belongs to parts that are off.
pub fn midway(rng: &mut Rng) -> Line {
    let (stages, r) = line_settings::cic(rng);
    let mut line = Line {
        cic: cic_decimator::midway(rng),
        fir: fir_decimator::midway(rng),
        half_band: hbf_stream::midway(rng),
        resampler: polyphase_resamp::midway_any(rng),
        cuts: some_cuts(rng),
        thinning: line_settings::thinning(rng, r).min(1),
        neighbours: std::array::from_fn(|_| samples::one(rng)),
    };
    line.cic.stages = stages;
    line.cic.r = r;
    line.cic.sample_counter = rng.below(2) * rng.below(r);
    let step = line_settings::step(rng);
    line.resampler.step = step;
    line.resampler.mu = polyphase_resamp::some_mu(rng, step).max(0.0);
    if rng.one_in(3) {
        line.resampler.phases = 0;
        line.resampler.taps = rng.pick(&[0, 17, u64::MAX]);
        line.resampler.step = rng.pick(&BAD_STEPS);
        line.resampler.mu = f32::NAN;
    }
    if line.fir.tap_count == 0 {
        line.fir.factor = settings::bad_factor(rng);
        line.fir.wait = rng.pick(&[0, u64::MAX]);
    }
    line
}

/// A line that row 15 names, with anything in its arrays; or what a refused opening leaves.
pub fn damaged(rng: &mut Rng) -> Line {
    if rng.one_in(16) {
        return Line::zeros();
    }
    loop {
        let mut line = midway(rng);
        line_damage::damage(rng, &mut line);
        if line.refusal() != 0 {
            return line;
        }
    }
}

fn some_feed(rng: &mut Rng, line: &mut Line) -> Box<dyn Case> {
    let most = rng.pick(&[2, 20, 20, 120]);
    let length = rng.below(most);
    let samples = line_samples::list(rng, length);
    let most = rng.pick(&[2, 8, 40]);
    let places = rng.below(most);
    FEED.on(line, Buffers::of(samples, samples::span(rng, places)))
}

/// With and without a next sample, with and without a place.
fn some_step(rng: &mut Rng, line: &mut Line) -> Box<dyn Case> {
    let length = rng.below(4);
    let samples: Slice<i32> = line_samples::list(rng, length).into();
    let next = Next {
        samples,
        at: match rng.below(4) {
            0 => rng.pick(&[length, length + 1, 1 << 32, u64::MAX]),
            _ => rng.below(length + 1),
        },
        places: rng.pick(&[0, 1, 1, 1, 2, 1 << 32, u64::MAX]),
    };
    STEP.on(line, next)
}

fn any_call(rng: &mut Rng, line: &mut Line) -> Box<dyn Case> {
    match rng.below(16) {
        0 => RESET.on(line, ()),
        1..=6 => some_feed(rng, line),
        _ => some_step(rng, line),
    }
}

/// From an opening: calls of every kind, each on the line that the one before left.
fn stream(rng: &mut Rng) -> Cases {
    let (opening, opened) = OPEN.of(line_settings::any_good(rng));
    let mut line = opened.0;
    let mut cases = vec![opening];
    cases.extend((0..rng.within(3, 12)).map(|_| any_call(rng, &mut line)));
    cases
}

/// What no record has: every field of the line.
pub fn more(rng: &mut Rng) -> Cases {
    match rng.below(4) {
        0 => {
            let mut line = damaged(rng);
            vec![any_call(rng, &mut line)]
        }
        1 => stream(rng),
        _ => {
            let mut line = midway(rng);
            vec![any_call(rng, &mut line)]
        }
    }
}

pub fn long(rng: &mut Rng) -> Cases {
    vec![line_feeds::long_case(rng)]
}
