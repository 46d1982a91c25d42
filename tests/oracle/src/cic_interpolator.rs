//! Cases of `CicInterpolator`.

use crate::archive::integer;
use crate::calls::{Buffers, Counts, Free, Push, Single, Value, Written};
use crate::case::{Case, Cases, Operation};
use crate::cic_settings::{self, Settings};
use crate::field::{Fields, fields};
use crate::lent::{LONGEST, Lent};
use crate::refusals;
use crate::rng::Rng;
use crate::samples;
use crate::settings;
use crate::sizes::{front, with_stages};
use embedded_dsp::resampling::CicInterpolator;

pub type New = Free<Settings, State>;
pub type Step = Single<State, Push<i32>, Written>;
pub type Reading<T> = Free<State, Value<T>>;
pub type Block = Single<State, Buffers<i32, i32>, Counts>;

const NEW: Operation<New> = Operation {
    code: 0x21,
    name: "CicInterpolator::new",
    refusal: Some(|call| call.lent.refusal()),
    rust: |call| call.answer = State::opened(call.lent.stages, call.lent.r),
    archive: integer::cic_interpolator_new,
};

const PROCESS_SAMPLE: Operation<Step> = Operation {
    code: 0x22,
    name: "CicInterpolator::process_sample",
    refusal: Some(|call| refusals::cic_up(call.state.stages, call.state.r, call.lent.span.len())),
    rust: |call| with_stages!(call.state.stages, sample(call)),
    archive: integer::cic_interpolator_process_sample,
};

const GAIN: Operation<Reading<u64>> = Operation {
    code: 0x23,
    name: "CicInterpolator::gain",
    refusal: Some(|call| call.lent.refusal()),
    rust: |call| call.answer.value = with_stages!(call.lent.stages, gain(&call.lent)),
    archive: integer::cic_interpolator_gain,
};

const GAIN_BITS: Operation<Reading<u32>> = Operation {
    code: 0x24,
    name: "CicInterpolator::gain_bits",
    refusal: Some(|call| call.lent.refusal()),
    rust: |call| call.answer.value = with_stages!(call.lent.stages, gain_bits(&call.lent)),
    archive: integer::cic_interpolator_gain_bits,
};

const PROCESS_BLOCK: Operation<Block> = Operation {
    code: 0,
    name: "CicInterpolator::process_block",
    refusal: Some(|call| refusals::cic_up(call.state.stages, call.state.r, call.lent.span.len())),
    rust: |call| with_stages!(call.state.stages, block(call)),
    archive: integer::cic_interpolator_process_block,
};

fields! {
    /// The port's state: the Rust has N as a constant, and N places for 8.
    pub struct State {
        stages: u64,
        r: u64,
        combs: [i32; 8],
        integrators: [i32; 8],
    }
}

impl State {
    fn opened(stages: u64, r: u64) -> Self {
        with_stages!(stages, opened(r))
    }

    fn rust<const N: usize>(&self) -> CicInterpolator<N> {
        CicInterpolator::from_parts(
            self.r as usize,
            front(&self.combs),
            front(&self.integrators),
        )
    }

    /// The places at and past N stay.
    fn keep<const N: usize>(&mut self, rust: &CicInterpolator<N>) {
        let (r, combs, integrators) = rust.parts();
        self.r = r as u64;
        self.combs[..N].copy_from_slice(&combs);
        self.integrators[..N].copy_from_slice(&integrators);
    }

    fn refusal(&self) -> u32 {
        refusals::cic_interpolator(self.stages, self.r)
    }
}

fn opened<const N: usize>(r: u64) -> State {
    let mut state = State::zeros();
    state.stages = N as u64;
    state.keep(&CicInterpolator::<N>::new(r as usize));
    state
}

fn sample<const N: usize>(call: &mut Step) {
    let mut rust = call.state.rust::<N>();
    rust.process_sample(call.lent.sample, &mut call.lent.span.elements);
    call.state.keep(&rust);
    call.answer.written = call.state.r;
}

/// What the port adds: samples from the front while the span has r places, each through `process_sample`.
fn block<const N: usize>(call: &mut Block) {
    let mut rust = call.state.rust::<N>();
    let r = call.state.r as usize;
    let (input, span) = (&call.lent.samples.elements, &mut call.lent.span.elements);
    let mut taken = 0;
    for (&sample, outputs) in input.iter().zip(span.chunks_exact_mut(r)) {
        rust.process_sample(sample, outputs);
        taken += 1;
    }
    call.state.keep(&rust);
    call.answer = Counts {
        taken,
        written: taken * call.state.r,
    };
}

fn gain<const N: usize>(state: &State) -> u64 {
    state.rust::<N>().gain()
}

fn gain_bits<const N: usize>(state: &State) -> u32 {
    state.rust::<N>().gain_bits()
}

fn some_opening(rng: &mut Rng) -> Box<dyn Case> {
    NEW.of(cic_settings::any(rng)).0
}

fn gains(state: &State) -> Cases {
    vec![GAIN.of(state.clone()).0, GAIN_BITS.of(state.clone()).0]
}

/// The gain and its bits of every N and r.
pub fn every_gain() -> Cases {
    cic_settings::every()
        .flat_map(|settings| gains(&State::opened(settings.stages, settings.r)))
        .collect()
}

/// A span that is exactly r long, longer, or too short.
fn some_span(rng: &mut Rng, r: u64) -> Lent {
    let r = r.min(4097);
    let length = match rng.below(12) {
        0 => 0,
        1 => r.saturating_sub(1),
        2 => rng.below(r + 1),
        3..=6 => r,
        7 => r + 1,
        _ => r + rng.within(2, 12),
    };
    samples::span(rng, length)
}

fn some_sample(rng: &mut Rng, state: &mut State) -> Box<dyn Case> {
    let input = samples::one(rng);
    let span = some_span(rng, state.r);
    PROCESS_SAMPLE.on(state, Push::of(input, span))
}

/// One call of any kind, which leaves the state that the next one gets.
fn any_call(rng: &mut Rng, state: &mut State) -> Box<dyn Case> {
    match rng.below(8) {
        0 => GAIN.of(state.clone()).0,
        1 => GAIN_BITS.of(state.clone()).0,
        _ => some_sample(rng, state),
    }
}

/// Valid settings, r at most `most`, anything in the sums, in the places past N too.
fn midway(rng: &mut Rng, most: u64) -> State {
    State {
        stages: cic_settings::stages(rng),
        r: cic_settings::factor_up_to(rng, most),
        combs: samples::eight(rng),
        integrators: samples::eight(rng),
    }
}

/// A state that 15 turns back.
fn damaged(rng: &mut Rng) -> State {
    let mut state = midway(rng, 4096);
    match rng.below(3) {
        0 => state.stages = cic_settings::bad_stages(rng),
        1 => state.r = settings::bad_factor(rng),
        _ => state = State::zeros(),
    }
    state
}

/// Around the gains r^(N-1) whose bits matter.
fn gain_edge(rng: &mut Rng) -> State {
    let mut state = midway(rng, 4096);
    state.r = cic_settings::gain_edge(rng, state.stages - 1);
    state
}

/// From an opening: calls of every kind, each on the state that the one before left.
fn stream(rng: &mut Rng) -> Cases {
    let stages = cic_settings::stages(rng);
    let r = cic_settings::factor_up_to(rng, 24);
    let mut state = State::opened(stages, r);
    (0..rng.within(4, 16))
        .map(|_| any_call(rng, &mut state))
        .collect()
}

/// A span past 65,536 places, which limits other calls and not this one.
fn longest_span(rng: &mut Rng) -> Box<dyn Case> {
    let mut state = midway(rng, 64);
    let input = samples::one(rng);
    let places = rng.pick(&[65_536, 65_537, LONGEST]);
    let span = samples::span(rng, places);
    PROCESS_SAMPLE.on(&mut state, Push::of(input, span))
}

pub fn cases(rng: &mut Rng) -> Cases {
    match rng.below(64) {
        0..=7 => (0..4).map(|_| some_opening(rng)).collect(),
        8..=17 => {
            let mut state = damaged(rng);
            vec![any_call(rng, &mut state)]
        }
        18..=25 => {
            let state = gain_edge(rng);
            gains(&state)
        }
        26..=53 => {
            let mut state = midway(rng, 64);
            vec![any_call(rng, &mut state)]
        }
        54 => {
            let mut state = midway(rng, 4096);
            vec![any_call(rng, &mut state)]
        }
        55 => match rng.below(8) {
            0 => vec![longest_span(rng)],
            _ => stream(rng),
        },
        _ => stream(rng),
    }
}

/// A block of so many samples, with a span around their outputs.
fn some_block(rng: &mut Rng, state: &mut State, length: u64) -> Box<dyn Case> {
    let r = state.r.clamp(1, 4096);
    let length = length.min(LONGEST / r);
    let places = settings::places_around(rng, length * r) + rng.pick(&[0, 0, r / 2, r]);
    let listed = rng.pick(&[0, 8, 40]);
    let input = samples::list(rng, length, listed);
    let span = samples::span(rng, places.min(LONGEST));
    PROCESS_BLOCK.on(state, Buffers::of(input, span))
}

/// A sample, or a block of some.
fn sample_or_block(rng: &mut Rng, state: &mut State) -> Box<dyn Case> {
    match rng.below(4) {
        0 => some_sample(rng, state),
        _ => {
            let length = rng.pick(&[0, 1, 2, 3, 5, 8, 40]);
            some_block(rng, state, length)
        }
    }
}

/// Blocks, which no list has: by themselves, on states that 15 turns back, and in streams with samples between them.
pub fn more(rng: &mut Rng) -> Cases {
    let mut state = match rng.below(16) {
        0 => damaged(rng),
        1 => midway(rng, 4096),
        2..=8 => midway(rng, 24),
        _ => State::opened(
            cic_settings::stages(rng),
            cic_settings::factor_up_to(rng, 24),
        ),
    };
    (0..rng.within(1, 6))
        .map(|_| sample_or_block(rng, &mut state))
        .collect()
}

/// A block that is longer than `replay` has room for.
pub fn long(rng: &mut Rng) -> Cases {
    let mut state = midway(rng, 64);
    let length = rng.within(LONGEST, 2 * LONGEST);
    let places = settings::places_around(rng, length * state.r);
    let input = samples::noise(rng, length);
    let span = samples::span(rng, places);
    vec![PROCESS_BLOCK.on(&mut state, Buffers::of(input, span))]
}
