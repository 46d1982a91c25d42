//! Calls on a line that row 15 names: refused, and the line and the span are as lent.

use crate::calls::Buffers;
use crate::case::{Case, Cases};
use crate::cic_settings;
use crate::field::{Field, Fields, Member};
use crate::gauge_line::Line;
use crate::line_calls::{FEED, Next, RESET, STEP};
use crate::line_samples;
use crate::line_settings::{self, BAD_STEPS, Settings};
use crate::record::Record;
use crate::refusals;
use crate::rng::Rng;
use crate::samples;
use crate::settings;

const DAMAGED: u32 = 0xc3;

/// The numbers that row 15 looks at, and the count of cut values, which it does not.
fn numbers(line: &mut Line) -> Vec<Field<'_>> {
    vec![
        line.cic.stages.field().named("stages"),
        line.cic.r.field().named("r"),
        line.cic.sample_counter.field().named("sample_counter"),
        line.fir.tap_count.field().named("tap_count"),
        line.fir.factor.field().named("factor"),
        line.fir.wait.field().named("wait"),
        line.half_band.depth.field().named("depth"),
        line.half_band.counts.field().named("counts"),
        line.resampler.phases.field().named("phases"),
        line.resampler.taps.field().named("taps"),
        line.resampler.step.field().named("step"),
        line.resampler.mu.field().named("mu"),
        line.cuts.field().named("cuts"),
    ]
}

/// A fresh line, in which what belongs to parts that are off stands too.
fn fresh(settings: &Settings) -> Line {
    let mut line = Line::opened(settings);
    line.fir.factor = settings.factor;
    line.resampler.taps = settings.taps;
    line.resampler.step = settings.step;
    line.resampler.mu = 1.0;
    line
}

/// The numbers of the decimator and the FIR.
fn damage_integers(rng: &mut Rng, line: &mut Line, faults: u64) {
    if faults & 1 != 0 {
        line.cic.stages = cic_settings::bad_stages(rng);
    }
    if faults & 2 != 0 {
        line.cic.r = match line.thinning {
            0 => settings::bad_factor(rng),
            _ => rng.pick(&[0, 3, 6, 48, 4095, 8192]),
        };
    }
    if faults & 4 != 0 {
        line.cic.sample_counter = rng.pick(&[line.cic.r, line.cic.r.wrapping_add(1), u64::MAX]);
    }
    if faults & 8 != 0 {
        line.fir.tap_count = rng.pick(&[1, 64, 65, 1 << 32, u64::MAX]);
    }
    if faults & 16 != 0 {
        line.fir.factor = settings::bad_factor(rng);
    }
    if faults & 32 != 0 {
        let most = line.fir.tap_count.max(line.fir.factor);
        line.fir.wait = rng.pick(&[0, most, most.wrapping_add(1), u64::MAX]);
    }
}

/// The numbers of the half-band stages and the resampler.
fn damage_floats(rng: &mut Rng, line: &mut Line, faults: u64) {
    if faults & 64 != 0 {
        line.half_band.depth = settings::bad_depth(rng);
    }
    if faults & 128 != 0 {
        line.half_band.counts[rng.below(5) as usize] = rng.pick(&[1, 2, 1 << 32, u64::MAX]);
    }
    if faults & 256 != 0 {
        line.resampler.phases = rng.pick(&[1, 65, 1 << 32, u64::MAX]);
    }
    if faults & 512 != 0 {
        line.resampler.taps = rng.pick(&[0, 17, 1 << 32, u64::MAX]);
    }
    if faults & 1024 != 0 {
        line.resampler.step = rng.pick(&BAD_STEPS);
    }
    if faults & 2048 != 0 {
        let above = f32::from_bits((1.0 + line.resampler.step).to_bits().wrapping_add(1));
        line.resampler.mu = rng.pick(&[-1e-45, -0.5, above, f32::INFINITY, f32::NAN]);
    }
}

/// One number or several.
pub fn damage(rng: &mut Rng, line: &mut Line) {
    let faults = match rng.one_in(4) {
        true => rng.below(4096),
        false => 1 << rng.below(12),
    };
    damage_integers(rng, line, faults);
    damage_floats(rng, line, faults);
}

/// A feed, a reset and a step of one line.
struct Damaged {
    settings: Settings,
    line: Line,
    buffers: Buffers<i32, f32>,
    calls: Cases,
}

/// What a line is opened with, and the line with numbers of which row 15 names one or several.
fn damaged(rng: &mut Rng) -> (Settings, Line) {
    loop {
        let settings = line_settings::good(rng);
        let mut line = fresh(&settings);
        damage(rng, &mut line);
        line.cuts = rng.pick(&[0, 1, u32::MAX]);
        if line.refusal() != 0 {
            return (settings, line);
        }
    }
}

pub fn some_case(rng: &mut Rng) -> Box<dyn Case> {
    let (settings, mut line) = damaged(rng);
    let length = rng.below(12);
    let samples = line_samples::list(rng, length);
    let places = rng.below(12);
    let buffers: Buffers<i32, f32> = Buffers::of(samples, samples::span(rng, places));
    let next = Next {
        samples: buffers.samples.clone(),
        at: length / 2,
        places,
    };
    Box::new(Damaged {
        calls: vec![
            FEED.on(&mut line, buffers.clone()),
            RESET.on(&mut line, ()),
            STEP.on(&mut line, next),
        ],
        settings,
        line,
        buffers,
    })
}

impl Case for Damaged {
    /// The numbers of the line that are given, and of the line that the feed hands back nothing: they are as lent.
    fn record(&self) -> Record {
        let mut record = Record::of(DAMAGED);
        let (mut settings, mut line) = (self.settings.clone(), self.line.clone());
        let mut buffers = self.buffers.clone();
        let lent = [settings.fields(), numbers(&mut line), buffers.fields()];
        for field in lent.iter().flatten() {
            record.input(field);
        }
        let refusal = refusals::STATE;
        record.refusal(refusal);
        // Nothing taken, nothing written, the count of cut values as lent, no place of the span changed.
        for _ in 0..4 {
            record.word(0);
        }
        record.word(self.line.cuts).word(0);
        record.refusal(refusal).refusal(refusal);
        record
    }

    fn samples(&self) -> u64 {
        0
    }

    fn agrees(&self) -> bool {
        self.calls.iter().all(|call| call.agrees())
    }

    fn report(&self) -> String {
        let differing = self.calls.iter().filter(|call| !call.agrees());
        let reports: Vec<String> = differing.map(|call| call.report()).collect();
        reports.join("\n")
    }
}
