//! Cases of `NonrecursiveDecimator`, which the Rust does not have: from an opening its sums are those of the Rust's `CicDecimator`, sample after sample. Its neighbours, and what
//! a sample does to any state, are written from 02, request 13.

use crate::archive::integer;
use crate::calls::{Buffers, Counts, Free, Made, Sample, Single, Value};
use crate::case::{Case, Cases, Operation};
use crate::cic_decimator;
use crate::cic_settings::{self, Settings};
use crate::field::{Field, Fields, Member, fields};
use crate::lent::{LONGEST, Lent};
use crate::refusals;
use crate::rng::Rng;
use crate::samples;
use crate::settings;
use crate::stream::Lists;

pub type New = Free<Settings, State>;
pub type Step = Single<State, Sample<i32>, Made<i32>>;
pub type Reading<T> = Free<State, Value<T>>;
pub type Block = Single<State, Buffers<i32, i32>, Counts>;
type Run = Free<Lists<Settings, i32>, Answers>;

const NEW: Operation<New> = Operation {
    code: 0,
    name: "NonrecursiveDecimator::new",
    refusal: Some(|call| refusals::nonrecursive_opening(call.lent.stages, call.lent.r)),
    rust: |call| call.answer = State::opened(&call.lent),
    archive: integer::nonrecursive_decimator_new,
};

const PROCESS_SAMPLE: Operation<Step> = Operation {
    code: 0,
    name: "NonrecursiveDecimator::process_sample",
    refusal: Some(|call| call.state.refusal()),
    rust: |call| call.answer = call.state.sample(call.lent.sample).into(),
    archive: integer::nonrecursive_decimator_process_sample,
};

const PROCESS_SAMPLE_SCALED: Operation<Step> = Operation {
    code: 0,
    name: "NonrecursiveDecimator::process_sample_scaled",
    refusal: Some(|call| match call.state.refusal() {
        0 => refusals::line_cic(call.state.stages, call.state.r),
        number => number,
    }),
    rust: |call| {
        call.answer = call.state.scaled(call.lent.sample).into();
    },
    archive: integer::nonrecursive_decimator_process_sample_scaled,
};

const GAIN: Operation<Reading<u64>> = Operation {
    code: 0,
    name: "NonrecursiveDecimator::gain",
    refusal: Some(|call| call.lent.refusal()),
    rust: |call| call.answer.value = call.lent.r.saturating_pow(call.lent.stages as u32),
    archive: integer::nonrecursive_decimator_gain,
};

const GAIN_BITS: Operation<Reading<u32>> = Operation {
    code: 0,
    name: "NonrecursiveDecimator::gain_bits",
    refusal: Some(|call| call.lent.refusal()),
    // 2^(N × log2 r), held at 64.
    rust: |call| call.answer.value = (call.lent.r.ilog2() * call.lent.stages as u32).min(64),
    archive: integer::nonrecursive_decimator_gain_bits,
};

const PROCESS_BLOCK: Operation<Block> = Operation {
    code: 0,
    name: "NonrecursiveDecimator::process_block",
    refusal: Some(|call| call.state.refusal()),
    rust: block,
    archive: integer::nonrecursive_decimator_process_block,
};

const RUN: Operation<Run> = Operation {
    code: 0,
    name: "NonrecursiveDecimator::new, then process_sample for each sample, as the Rust's CicDecimator",
    refusal: Some(|call| {
        refusals::nonrecursive_opening(call.lent.opening.stages, call.lent.opening.r)
    }),
    rust: |call| {
        let Settings { stages, r } = call.lent.opening;
        let mut rust = cic_decimator::State::opened(stages, r);
        let samples = &call.lent.samples.elements;
        for &sample in samples {
            call.answer.push(rust.sample(sample).into());
        }
        call.answer.state = State::after(&call.lent.opening, samples);
    },
    archive: run_archive,
};

fields! {
    /// The port's state.
    pub struct State {
        stages: u64,
        r: u64,
        neighbours: [i32; 96],
        place: u64,
    }
}

/// What each sample gave, and the state that is left.
#[derive(Clone)]
pub struct Answers {
    made: Vec<u32>,
    outputs: Vec<i32>,
    state: State,
}

impl Answers {
    fn push(&mut self, answer: Made<i32>) {
        self.made.push(answer.made);
        self.outputs.push(answer.output);
    }
}

impl Fields for Answers {
    fn fields(&mut self) -> Vec<Field<'_>> {
        let mut fields = vec![
            self.made.field().named("made"),
            self.outputs.field().named("outputs"),
        ];
        fields.extend(self.state.fields());
        fields
    }

    fn zeros() -> Self {
        Answers {
            made: Vec::new(),
            outputs: Vec::new(),
            state: State::zeros(),
        }
    }
}

/// "N times add each value to the one before": the list, with what stood last before each of the additions.
fn neighbour_sums(stages: u64, list: &[i32]) -> (Vec<i32>, Vec<i32>) {
    let mut list = list.to_vec();
    let mut neighbours = Vec::new();
    for _ in 0..stages {
        neighbours.push(list.last().copied().unwrap_or(0));
        let before = std::iter::once(0).chain(list.clone());
        list = list
            .iter()
            .zip(before)
            .map(|(&x, y)| x.wrapping_add(y))
            .collect();
    }
    (list, neighbours)
}

impl State {
    fn opened(settings: &Settings) -> Self {
        State {
            stages: settings.stages,
            r: settings.r,
            ..State::zeros()
        }
    }

    /// After a whole list: "drop every first of two, and repeat until the factor is used up".
    fn after(settings: &Settings, samples: &[i32]) -> Self {
        let mut state = State::opened(settings);
        state.place = samples.len() as u64 % settings.r;
        let mut list = samples.to_vec();
        for halving in 0..settings.r.ilog2() as usize {
            let (sums, neighbours) = neighbour_sums(settings.stages, &list);
            let own = halving * neighbours.len();
            state.neighbours[own..own + neighbours.len()].copy_from_slice(&neighbours);
            list = sums.into_iter().skip(1).step_by(2).collect();
        }
        state
    }

    fn refusal(&self) -> u32 {
        refusals::nonrecursive_decimator(self.stages, self.r, self.place)
    }

    /// One sample: it goes through the neighbours of a halving, and on to the next where it is a second of two.
    fn sample(&mut self, sample: i32) -> Option<i32> {
        let stages = self.stages as usize;
        let seconds = self.place.trailing_ones().min(self.r.ilog2()) as usize;
        let through = (seconds + 1).min(self.r.ilog2() as usize);
        let value = self.neighbours[..stages * through]
            .iter_mut()
            .fold(sample, |value, neighbour| {
                value.wrapping_add(std::mem::replace(neighbour, value))
            });
        self.place = (self.place + 1) % self.r;
        (self.place == 0).then_some(value)
    }

    /// The same, scaled by as many bits as there are halvings of all stages.
    pub fn scaled(&mut self, sample: i32) -> Option<i32> {
        let bits = self.stages * u64::from(self.r.ilog2());
        self.sample(sample).map(|sum| sum >> bits.min(31))
    }
}

/// Samples from the front while the span has a place, each by itself.
fn block(call: &mut Block) {
    let (samples, span) = (&call.lent.samples.elements, &mut call.lent.span.elements);
    let (mut taken, mut written) = (0, 0);
    while written < span.len() && taken < samples.len() {
        if let Some(sum) = call.state.sample(samples[taken]) {
            span[written] = sum;
            written += 1;
        }
        taken += 1;
    }
    call.answer = Counts {
        taken: taken as u64,
        written: written as u64,
    };
}

/// A block of a few frames, or of more than a tape, with a span around the number of its sums.
fn some_block(rng: &mut Rng, state: &mut State) -> Box<dyn Case> {
    let r = state.r.clamp(1, 4096);
    let frames = rng.pick(&[0, 1, 2, 5, 300 / r, 600 / r]);
    let length = (frames * r + rng.pick(&[0, 1, r - 1, r / 2])).min(LONGEST);
    let due = (state.place.min(r) + length) / r;
    let places = settings::places_around(rng, due);
    let input = samples::list(rng, length, 40);
    let span = samples::span(rng, places.min(LONGEST));
    PROCESS_BLOCK.on(state, Buffers::of(input, span))
}

/// Through the archive: every answer, a sum or nothing.
fn run_archive(call: &mut Run) -> u64 {
    let mut opening = Single::of((), call.lent.opening.clone());
    let mut refusal = integer::nonrecursive_decimator_new(&mut opening);
    let mut step: Step = Single::of(opening.answer, Sample::zeros());
    for &sample in &call.lent.samples.elements {
        if refusal != 0 {
            break;
        }
        step.lent.sample = sample;
        refusal = integer::nonrecursive_decimator_process_sample(&mut step);
        call.answer.push(step.answer.clone());
    }
    call.answer.state = step.state;
    refusal
}

fn power_of_two(rng: &mut Rng) -> u64 {
    match rng.below(4) {
        0 => 1 << rng.below(13),
        _ => 1 << rng.below(6),
    }
}

/// Settings of which the factor may be no power of two, or one or both may be outside the limits.
fn some_opening(rng: &mut Rng) -> Box<dyn Case> {
    let mut settings = cic_settings::any(rng);
    if rng.one_in(2) {
        settings.r = power_of_two(rng);
    }
    NEW.of(settings).0
}

/// Valid settings and place, anything in the neighbours, in those past the last halving too.
fn midway(rng: &mut Rng) -> State {
    let r = power_of_two(rng);
    State {
        stages: cic_settings::stages(rng),
        r,
        neighbours: std::array::from_fn(|_| samples::one(rng)),
        place: match rng.below(3) {
            0 => 0,
            1 => r - 1,
            _ => rng.below(r),
        },
    }
}

/// A state that 15 turns back.
fn damaged(rng: &mut Rng) -> State {
    let mut state = midway(rng);
    match rng.below(6) {
        0 => state.stages = cic_settings::bad_stages(rng),
        1 => state.r = settings::bad_factor(rng),
        2 => state.r = rng.pick(&[3, 5, 6, 12, 4095]),
        3 => state = State::zeros(),
        _ => {
            let r = state.r;
            state.place = rng.pick(&[r, r, r + 1, r + (1 << 32), u64::MAX]);
        }
    }
    state
}

fn any_call(rng: &mut Rng, state: &mut State) -> Box<dyn Case> {
    let sample = Sample {
        sample: samples::one(rng),
    };
    match rng.below(12) {
        0 => GAIN.of(state.clone()).0,
        1 => GAIN_BITS.of(state.clone()).0,
        8.. => some_block(rng, state),
        2..=4 => PROCESS_SAMPLE_SCALED.on(state, sample),
        _ => PROCESS_SAMPLE.on(state, sample),
    }
}

/// Samples of a stream of the Rust's decimator, factors that are no power of two too.
fn some_run(rng: &mut Rng, most: u64) -> Box<dyn Case> {
    let mut settings = cic_settings::any(rng);
    if !rng.one_in(16) {
        settings.stages = cic_settings::stages(rng);
        settings.r = power_of_two(rng);
    }
    let r = settings.r.clamp(1, 4096);
    let length = (rng.below(8) * r + rng.pick(&[0, 1, r - 1])).min(most);
    let listed = rng.pick(&[8, 40]);
    RUN.of(Lists::of(settings, samples::list(rng, length, listed)))
        .0
}

pub fn cases(rng: &mut Rng) -> Cases {
    match rng.below(16) {
        0 | 1 => vec![some_opening(rng)],
        2 | 3 => {
            let mut state = damaged(rng);
            vec![any_call(rng, &mut state)]
        }
        4..=9 => {
            let mut state = midway(rng);
            (0..4).map(|_| any_call(rng, &mut state)).collect()
        }
        _ => vec![some_run(rng, 6000)],
    }
}

/// The gain, its bits and the opening of every N and r.
pub fn every_setting() -> Cases {
    let mut cases: Cases = Vec::new();
    for settings in cic_settings::every() {
        if settings.r.is_power_of_two() {
            let state = State::opened(&settings);
            cases.push(GAIN.of(state.clone()).0);
            cases.push(GAIN_BITS.of(state).0);
        }
        cases.push(NEW.of(settings).0);
    }
    cases
}

/// A stream that is longer than `replay` has room for.
pub fn long(rng: &mut Rng) -> Cases {
    let settings = Settings {
        stages: cic_settings::stages(rng),
        r: power_of_two(rng),
    };
    let length = rng.within(LONGEST, 2 * LONGEST);
    let samples: Lent = samples::noise(rng, length);
    vec![RUN.of(Lists::of(settings, samples)).0]
}
