//! Cases of `PolyphaseResampF32`.

use crate::archive::float;
use crate::calls::{Buffers, Counts, Free, Push, Single, Written};
use crate::case::{Case, Cases, Operation};
use crate::field::{Fields, fields};
use crate::float_samples;
use crate::lent::{LONGEST, Slice};
use crate::refusals;
use crate::rng::Rng;
use crate::samples;
use crate::search;
use crate::settings;
use crate::sizes::RESAMPLERS;
use crate::straight::Straight;
use resamplers::Resampler;

pub type New = Free<Settings, State>;
pub type Block = Single<State, Buffers<f32, f32>, Counts>;
pub type Step = Single<State, Push<f32>, Written>;
pub type Reset = Single<State, (), ()>;

const FROM_TAPS: Operation<New> = Operation {
    code: 0xb1,
    name: "PolyphaseResampF32::from_taps",
    refusal: Some(|call| call.lent.refusal()),
    rust: |call| call.answer = State::opened(0, &call.lent),
    archive: float::polyphase_resamp_from_taps,
};

const FROM_TAPS_STRAIGHT: Operation<New> = Operation {
    code: 0xb5,
    name: "PolyphaseResampF32::from_taps_straight",
    refusal: Some(|call| call.lent.refusal()),
    rust: |call| call.answer = State::opened(1, &call.lent),
    archive: float::polyphase_resamp_from_taps_straight,
};

const PROCESS_BLOCK: Operation<Block> = Operation {
    code: 0xb2,
    name: "PolyphaseResampF32::process_block",
    refusal: Some(|call| call.state.refusal()),
    rust: |call| call.answer = call.state.feed(&mut call.lent),
    archive: float::polyphase_resamp_process_block,
};

const PUSH: Operation<Step> = Operation {
    code: 0xb3,
    name: "PolyphaseResampF32::push",
    refusal: Some(|call| call.state.refusal()),
    rust: |call| {
        let Push { sample, span } = &mut call.lent;
        call.answer.written = call.state.push(*sample, &mut span.elements);
    },
    archive: float::polyphase_resamp_push,
};

const RESET: Operation<Reset> = Operation {
    code: 0xb4,
    name: "PolyphaseResampF32::reset",
    refusal: Some(|call| call.state.refusal()),
    rust: |call| call.state.reset(),
    archive: float::polyphase_resamp_reset,
};

/// The lowest mu: one less rounds to itself.
const LOWEST_MU: f32 = -16_777_216.0;

fields! {
    /// What a resampler is opened with.
    pub struct Settings {
        phases: u64,
        taps: u64,
        step: f32,
        prototype: Slice<f32>,
    }
}

impl Settings {
    fn refusal(&self) -> u32 {
        refusals::resampler_opening(self.phases, self.taps, self.prototype.len(), self.step)
    }
}

fields! {
    /// The port's state: the Rust has P and T as constants, and a row of taps for each phase. `straight` is 0 in wrapped phase.
    pub struct State {
        phases: u64,
        taps: u64,
        straight: u64,
        mu: f32,
        step: f32,
        delay: [f32; 16],
        prototype: [f32; 1024],
    }
}

impl State {
    pub fn opened(straight: u64, settings: &Settings) -> Self {
        let mut state = State::zeros();
        state.phases = settings.phases;
        state.taps = settings.taps;
        state.straight = straight;
        state.keep(&*opened(
            straight,
            settings.phases,
            settings.taps,
            &settings.prototype.elements,
            settings.step,
        ));
        state
    }

    /// The taps and phases that are run.
    pub fn own_prototype(&self) -> &[f32] {
        &self.prototype[..(self.phases * self.taps) as usize]
    }

    fn rust(&self) -> Box<dyn Resampler> {
        let mut rust = opened(
            self.straight,
            self.phases,
            self.taps,
            self.own_prototype(),
            self.step,
        );
        rust.set_parts(&self.delay[..self.taps as usize], self.mu);
        rust
    }

    /// The places at and past T and P × T stay.
    fn keep(&mut self, rust: &dyn Resampler) {
        let (h, delay, mu, step) = rust.parts();
        let (phases, taps) = (self.phases as usize, self.taps as usize);
        for (i, &tap) in h.iter().enumerate() {
            self.prototype[i % taps * phases + i / taps] = tap;
        }
        self.delay[..taps].copy_from_slice(delay);
        self.mu = mu;
        self.step = step;
    }

    fn refusal(&self) -> u32 {
        refusals::resampler(self.phases, self.taps, self.step, self.mu)
    }

    pub fn block(&mut self, samples: &[f32], span: &mut [f32]) -> usize {
        let mut rust = self.rust();
        let written = rust.process_block(samples, span);
        self.keep(&*rust);
        written
    }

    pub fn push(&mut self, sample: f32, span: &mut [f32]) -> u64 {
        let mut rust = self.rust();
        let written = rust.push(sample, span);
        self.keep(&*rust);
        written as u64
    }

    /// A fresh opening with the state's own settings: what stands behind T and P × T is no part of it.
    fn reset(&mut self) {
        let mut rust = self.rust();
        rust.reset();
        *self = State {
            phases: self.phases,
            taps: self.taps,
            straight: self.straight,
            ..State::zeros()
        };
        self.keep(&*rust);
    }

    /// How many samples the Rust's block took, which it does not say: all of them where a place is left, else the fewest that fill the span.
    fn taken(&self, samples: &[f32], places: usize, written: usize) -> usize {
        if written < places {
            return samples.len();
        }
        search::least(samples.len(), |taken| {
            let mut span = vec![0.0; places];
            self.rust().process_block(&samples[..taken], &mut span) == places
        })
    }

    fn feed(&mut self, lent: &mut Buffers<f32, f32>) -> Counts {
        let (samples, span) = (&lent.samples.elements, &mut lent.span.elements);
        let before = self.clone();
        let written = self.block(samples, span);
        Counts {
            taken: before.taken(samples, span.len(), written) as u64,
            written: written as u64,
        }
    }
}

/// The Rust's in wrapped phase, else 02's, with settings that are not refused.
pub fn opened(
    straight: u64,
    phases: u64,
    taps: u64,
    prototype: &[f32],
    step: f32,
) -> Box<dyn Resampler> {
    match straight {
        0 => resamplers::from_taps(phases, taps, prototype, step).expect("the refusals come first"),
        _ => Straight::opened(phases, taps, prototype, step),
    }
}

/// A step from the least positive f32 to the largest.
fn some_step(rng: &mut Rng) -> f32 {
    match rng.below(16) {
        0 => rng.pick(&[1e-45, f32::MIN_POSITIVE, 1e-30, 1e-9]),
        1 => rng.pick(&[f32::MAX, 3e38, 1e30, 16_777_216.0, 1e5]),
        2 => f32::from_bits(rng.within(1, 0x7f7f_ffff) as u32),
        3..=6 => rng.pick(&[1.0, 0.5, 2.0, 0.25, 1.5, 0.015_625, 64.0, 0.999_999_94]),
        7 | 8 => rng.within(1, 1 << 10) as f32 / 16.0,
        _ => rng.within(1, 1 << 22) as f32 / (1 << 20) as f32,
    }
}

fn bad_step(rng: &mut Rng) -> f32 {
    let infinity = f32::INFINITY;
    rng.pick(&[0.0, -0.0, -1.0, f32::NAN, infinity, -infinity, -1e-45])
}

/// A mu from −2^24 to 1 + step as rounded, at both ends and beside them.
pub fn some_mu(rng: &mut Rng, step: f32) -> f32 {
    let most = 1.0 + step;
    let mu = match rng.below(16) {
        0 => rng.pick(&[0.0, -0.0, 1e-45, 1.0, 0.999_999_94]),
        1 => rng.pick(&[LOWEST_MU, -16_777_215.0, -1_000_000.5, -1e-45]),
        2 => most,
        3 => most.next_down(),
        4 => 1.0 + step * (rng.below(64) as f32 / 64.0),
        5..=7 => rng.within(0, 1 << 20) as f32 / (1 << 18) as f32 - 4.0,
        8 | 9 => rng.below(65) as f32 / 64.0,
        _ => rng.below(1 << 24) as f32 / (1 << 24) as f32,
    };
    mu.min(most)
}

fn bad_mu(rng: &mut Rng, step: f32) -> f32 {
    let past = (1.0 + step).next_up();
    let infinity = f32::INFINITY;
    rng.pick(&[f32::NAN, infinity, -infinity, -16_777_218.0, past, past])
}

/// Valid settings and mu, anything in the delay and the prototype, in the places past T and P × T too.
fn midway(rng: &mut Rng) -> State {
    let (phases, taps) = rng.pick(&RESAMPLERS);
    let step = some_step(rng);
    State {
        phases,
        taps,
        straight: rng.below(2),
        mu: some_mu(rng, step),
        step,
        delay: float_samples::places(rng),
        prototype: float_samples::places(rng),
    }
}

/// The same with any P and T.
pub fn midway_any(rng: &mut Rng) -> State {
    let mut state = midway(rng);
    (state.phases, state.taps) = settings::phases_and_taps(rng);
    state
}

/// A state that 15 turns back.
fn damaged(rng: &mut Rng) -> State {
    let mut state = midway(rng);
    let faults = rng.within(1, 15);
    if faults & 1 != 0 {
        state.phases = rng.pick(&[0, 1, 65, 1 << 32, (1 << 32) + 2, u64::MAX]);
    }
    if faults & 2 != 0 {
        state.taps = rng.pick(&[0, 17, 18, 1 << 32, (1 << 32) + 1, u64::MAX]);
    }
    if faults & 4 != 0 {
        state.step = bad_step(rng);
    }
    if faults & 8 != 0 {
        state.mu = bad_mu(rng, state.step);
    }
    state
}

fn some_phase(rng: &mut Rng) -> Operation<New> {
    match rng.below(2) {
        0 => FROM_TAPS,
        _ => FROM_TAPS_STRAIGHT,
    }
}

/// One fault, several at once, or none.
fn some_opening(rng: &mut Rng) -> Box<dyn Case> {
    let (mut phases, mut taps) = rng.pick(&RESAMPLERS);
    let mut length = phases * taps;
    let mut step = some_step(rng);
    let faults = rng.below(2) * rng.below(16);
    if faults & 1 != 0 {
        phases = rng.pick(&[0, 1, 65, 1 << 32, u64::MAX]);
    }
    if faults & 2 != 0 {
        taps = rng.pick(&[0, 17, 1 << 32, u64::MAX]);
    }
    if faults & 4 != 0 {
        length = rng.pick(&[0, length - 1, length + 1, 1025, 65_537]);
    }
    if faults & 8 != 0 {
        step = bad_step(rng);
    }
    let settings = Settings {
        phases,
        taps,
        step,
        prototype: float_samples::list(rng, length).into(),
    };
    some_phase(rng).of(settings).0
}

/// Samples and a span around each other; neither has a limit.
fn some_block(rng: &mut Rng, state: &mut State) -> Box<dyn Case> {
    let length = match rng.below(16) {
        0..=2 => 0,
        3 => rng.within(21, 80),
        _ => rng.within(1, 20),
    };
    let outputs = (length as f32 / state.step).clamp(0.0, 24.0) as u64;
    let places = match rng.below(4) {
        0 => rng.below(8),
        _ => (outputs + rng.below(5)).saturating_sub(2),
    };
    let input = float_samples::list(rng, length);
    let span = samples::span(rng, places);
    PROCESS_BLOCK.on(state, Buffers::of(input, span))
}

fn some_push(rng: &mut Rng, state: &mut State) -> Box<dyn Case> {
    let sample = float_samples::one(rng);
    let places = match rng.below(4) {
        0 => rng.within(3, 12),
        _ => rng.below(3),
    };
    let span = samples::span(rng, places);
    PUSH.on(state, Push::of(sample, span))
}

/// Past 65,536, which limits other blocks and not this one. A step of 64 and more keeps the record small.
fn longest_block(rng: &mut Rng) -> Box<dyn Case> {
    let mut state = midway(rng);
    state.step = rng.within(64, 4096) as f32;
    state.mu = some_mu(rng, state.step).max(0.0);
    let around = [65_536, 65_537, LONGEST];
    let (length, places) = (rng.pick(&around), rng.pick(&around));
    let input = float_samples::list(rng, length);
    let span = samples::span(rng, places);
    PROCESS_BLOCK.on(&mut state, Buffers::of(input, span))
}

fn any_call(rng: &mut Rng, state: &mut State) -> Box<dyn Case> {
    match rng.below(16) {
        0 => RESET.on(state, ()),
        1..=8 => some_block(rng, state),
        _ => some_push(rng, state),
    }
}

/// From an opening: calls of every kind, each on the state that the one before left.
fn stream(rng: &mut Rng, (phases, taps): (u64, u64)) -> Cases {
    let settings = Settings {
        phases,
        taps,
        step: some_step(rng),
        prototype: float_samples::list(rng, phases * taps).into(),
    };
    let (opening, mut state) = some_phase(rng).of(settings);
    let mut cases = vec![opening];
    cases.extend((0..rng.within(3, 12)).map(|_| any_call(rng, &mut state)));
    cases
}

pub fn cases(rng: &mut Rng) -> Cases {
    match rng.below(64) {
        0..=7 => vec![some_opening(rng)],
        8..=14 => {
            let mut state = damaged(rng);
            vec![any_call(rng, &mut state)]
        }
        15..=55 => {
            let mut state = midway(rng);
            vec![any_call(rng, &mut state)]
        }
        56 if rng.one_in(4) => vec![longest_block(rng)],
        _ => {
            let pair = rng.pick(&RESAMPLERS);
            stream(rng, pair)
        }
    }
}

/// Any P, with every T: a list has only some pairs.
pub fn more(rng: &mut Rng) -> Cases {
    if rng.one_in(8) {
        let pair = settings::phases_and_taps(rng);
        return stream(rng, pair);
    }
    let phases = rng.within(2, 64);
    (1..=16)
        .map(|taps| {
            let mut state = midway(rng);
            (state.phases, state.taps) = (phases, taps);
            any_call(rng, &mut state)
        })
        .collect()
}

/// A long block, of which a place stays unwritten or not. Levels alone leave every output a number.
pub fn long(rng: &mut Rng) -> Cases {
    let mut state = midway_any(rng);
    state.delay = float_samples::levels(rng);
    state.prototype = float_samples::levels(rng);
    state.step = rng.within(1 << 18, 1 << 23) as f32 / (1 << 20) as f32;
    state.mu = some_mu(rng, state.step).max(0.0);
    let length = rng.within(LONGEST / 2, 2 * LONGEST);
    let outputs = (length as f32 / state.step) as u64;
    let places = settings::places_around(rng, outputs);
    let input = float_samples::noise(rng, length);
    let span = samples::span(rng, places);
    vec![PROCESS_BLOCK.on(&mut state, Buffers::of(input, span))]
}
