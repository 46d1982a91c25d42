//! Cases of `CicDecimator`.

use crate::archive::integer;
use crate::calls::{Buffers, Counts, Free, Made, Sample, Single, Value};
use crate::case::{Case, Cases, Operation};
use crate::cic_settings::{self, Settings};
use crate::field::{Fields, fields};
use crate::lent::{LONGEST, Lent};
use crate::refusals;
use crate::rng::Rng;
use crate::samples;
use crate::settings;
use crate::sizes::{front, with_stages};
use embedded_dsp::resampling::CicDecimator;

pub type New = Free<Settings, State>;
pub type Step = Single<State, Sample<i32>, Made<i32>>;
pub type Reading<T> = Free<State, Value<T>>;
pub type Block = Single<State, Buffers<i32, i32>, Counts>;

const NEW: Operation<New> = Operation {
    code: 0x11,
    name: "CicDecimator::new",
    refusal: Some(|call| call.lent.refusal()),
    rust: |call| call.answer = State::opened(call.lent.stages, call.lent.r),
    archive: integer::cic_decimator_new,
};

const PROCESS_SAMPLE: Operation<Step> = Operation {
    code: 0x12,
    name: "CicDecimator::process_sample",
    refusal: Some(|call| call.state.refusal()),
    rust: |call| call.answer = call.state.sample(call.lent.sample).into(),
    archive: integer::cic_decimator_process_sample,
};

const PROCESS_SAMPLE_SCALED: Operation<Step> = Operation {
    code: 0x13,
    name: "CicDecimator::process_sample_scaled",
    refusal: Some(|call| call.state.scaled_refusal()),
    rust: |call| call.answer = call.state.scaled(call.lent.sample).into(),
    archive: integer::cic_decimator_process_sample_scaled,
};

const GAIN: Operation<Reading<u64>> = Operation {
    code: 0x14,
    name: "CicDecimator::gain",
    refusal: Some(|call| call.lent.refusal()),
    rust: |call| call.answer.value = with_stages!(call.lent.stages, gain(&call.lent)),
    archive: integer::cic_decimator_gain,
};

const GAIN_BITS: Operation<Reading<u32>> = Operation {
    code: 0x15,
    name: "CicDecimator::gain_bits",
    refusal: Some(|call| call.lent.refusal()),
    rust: |call| call.answer.value = with_stages!(call.lent.stages, gain_bits(&call.lent)),
    archive: integer::cic_decimator_gain_bits,
};

const PROCESS_BLOCK: Operation<Block> = Operation {
    code: 0x16,
    name: "CicDecimator::process_block",
    refusal: Some(|call| call.state.refusal()),
    rust: |call| with_stages!(call.state.stages, block(call)),
    archive: integer::cic_decimator_process_block,
};

/// A block of a fresh state, of a factor that is a power of two: a list's is replayed through the sums of neighbours too.
const FRESH_BLOCK: Operation<Block> = Operation {
    code: 0x17,
    name: "CicDecimator::process_block, from an opening of a power of two",
    ..PROCESS_BLOCK
};

fields! {
    /// The port's state: the Rust has N as a constant, and N places for 8.
    pub struct State {
        stages: u64,
        r: u64,
        integrators: [i32; 8],
        combs: [i32; 8],
        sample_counter: u64,
    }
}

impl State {
    pub fn opened(stages: u64, r: u64) -> Self {
        with_stages!(stages, opened(r))
    }

    fn rust<const N: usize>(&self) -> CicDecimator<N> {
        CicDecimator::from_parts(
            self.r as usize,
            front(&self.integrators),
            front(&self.combs),
            self.sample_counter as usize,
        )
    }

    /// The places at and past N stay.
    fn keep<const N: usize>(&mut self, rust: &CicDecimator<N>) {
        let (r, integrators, combs, sample_counter) = rust.parts();
        self.r = r as u64;
        self.integrators[..N].copy_from_slice(&integrators);
        self.combs[..N].copy_from_slice(&combs);
        self.sample_counter = sample_counter as u64;
    }

    fn refusal(&self) -> u32 {
        refusals::cic_decimator(self.stages, self.r, self.sample_counter)
    }

    fn scaled_refusal(&self) -> u32 {
        refusals::cic_scaled(self.stages, self.r, self.sample_counter)
    }

    pub fn sample(&mut self, input: i32) -> Option<i32> {
        with_stages!(self.stages, sample(self, input))
    }

    pub fn scaled(&mut self, input: i32) -> Option<i32> {
        with_stages!(self.stages, scaled(self, input))
    }
}

fn opened<const N: usize>(r: u64) -> State {
    let mut state = State::zeros();
    state.stages = N as u64;
    state.keep(&CicDecimator::<N>::new(r as usize));
    state
}

fn sample<const N: usize>(state: &mut State, input: i32) -> Option<i32> {
    let mut rust = state.rust::<N>();
    let output = rust.process_sample(input);
    state.keep(&rust);
    output
}

fn scaled<const N: usize>(state: &mut State, input: i32) -> Option<i32> {
    let mut rust = state.rust::<N>();
    let output = rust.process_sample_scaled(input);
    state.keep(&rust);
    output
}

fn gain<const N: usize>(state: &State) -> u64 {
    state.rust::<N>().gain()
}

fn gain_bits<const N: usize>(state: &State) -> u32 {
    state.rust::<N>().gain_bits()
}

/// What the port adds: samples from the front while the span has a place, each through `process_sample`.
fn block<const N: usize>(call: &mut Block) {
    let mut rust = call.state.rust::<N>();
    let (input, span) = (&call.lent.samples.elements, &mut call.lent.span.elements);
    let mut taken = 0;
    let mut written = 0;
    while written < span.len() && taken < input.len() {
        if let Some(sum) = rust.process_sample(input[taken]) {
            span[written] = sum;
            written += 1;
        }
        taken += 1;
    }
    call.state.keep(&rust);
    call.answer = Counts {
        taken: taken as u64,
        written: written as u64,
    };
}

fn some_sample(rng: &mut Rng) -> Sample<i32> {
    Sample {
        sample: samples::one(rng),
    }
}

fn some_opening(rng: &mut Rng) -> Box<dyn Case> {
    NEW.of(cic_settings::any(rng)).0
}

fn gains(state: &State) -> Cases {
    vec![GAIN.of(state.clone()).0, GAIN_BITS.of(state.clone()).0]
}

/// The gain and its bits of every N and r.
pub fn every_gain() -> Cases {
    cic_settings::every()
        .flat_map(|settings| gains(&State::opened(settings.stages, settings.r)))
        .collect()
}

/// A block whose samples complete about `outputs` sums, with a span around their number.
fn some_block(rng: &mut Rng, state: &mut State, outputs: u64) -> Box<dyn Case> {
    let r = state.r.clamp(1, 4096);
    let counter = state.sample_counter.min(r);
    let about = outputs * r + rng.pick(&[0, 1, 2, r]);
    let length = about.saturating_sub(counter + 1).min(LONGEST);
    let due = (counter + length) / r;
    let places = settings::places_around(rng, due);
    let listed = rng.pick(&[0, 8, 40]);
    let input = samples::list(rng, length, listed);
    let span = samples::span(rng, places.min(LONGEST));
    let is_fresh =
        state.integrators == [0; 8] && state.combs == [0; 8] && state.sample_counter == 0;
    let block = match is_fresh && state.refusal() == 0 && state.r.is_power_of_two() {
        true => FRESH_BLOCK,
        false => PROCESS_BLOCK,
    };
    block.on(state, Buffers::of(input, span))
}

/// From an opening: blocks, each of a fresh state whose factor is a power of two.
fn fresh_blocks(rng: &mut Rng) -> Cases {
    let fresh = |rng: &mut Rng| {
        let r = 1 << rng.below(9);
        let mut state = State::opened(cic_settings::stages(rng), r);
        let outputs = few_outputs(rng);
        some_block(rng, &mut state, outputs)
    };
    (0..4).map(|_| fresh(rng)).collect()
}

fn few_outputs(rng: &mut Rng) -> u64 {
    match rng.below(64) {
        0 => rng.within(65, 400),
        1..=7 => rng.within(9, 64),
        _ => rng.below(8),
    }
}

/// One call of any kind, which leaves the state that the next one gets.
fn any_call(rng: &mut Rng, state: &mut State) -> Box<dyn Case> {
    match rng.below(16) {
        0 => GAIN.of(state.clone()).0,
        1 => GAIN_BITS.of(state.clone()).0,
        2..=6 => {
            let outputs = few_outputs(rng);
            some_block(rng, state, outputs)
        }
        7..=10 => PROCESS_SAMPLE_SCALED.on(state, some_sample(rng)),
        _ => PROCESS_SAMPLE.on(state, some_sample(rng)),
    }
}

/// Valid settings and counter, anything in the sums, in the places past N too.
pub fn midway(rng: &mut Rng) -> State {
    let r = cic_settings::factor(rng);
    State {
        stages: cic_settings::stages(rng),
        r,
        integrators: samples::eight(rng),
        combs: samples::eight(rng),
        sample_counter: match rng.below(3) {
            0 => 0,
            1 => r - 1,
            _ => rng.below(r),
        },
    }
}

/// A state that 15 turns back.
fn damaged(rng: &mut Rng) -> State {
    let mut state = midway(rng);
    match rng.below(5) {
        0 => state.stages = cic_settings::bad_stages(rng),
        1 => state.r = settings::bad_factor(rng),
        2 => state = State::zeros(),
        _ => {
            let r = state.r;
            state.sample_counter = rng.pick(&[r, r, r + 1, r + (1 << 32), u64::MAX]);
        }
    }
    state
}

/// Around the gains r^N whose bits matter.
fn gain_edge(rng: &mut Rng) -> State {
    let mut state = midway(rng);
    state.r = cic_settings::gain_edge(rng, state.stages);
    state.sample_counter = rng.pick(&[0, state.r - 1]);
    state
}

/// A state of any kind: valid, damaged, around the gains whose bits matter.
pub fn any(rng: &mut Rng) -> State {
    match rng.below(4) {
        0 => damaged(rng),
        1 => midway(rng),
        _ => gain_edge(rng),
    }
}

/// From an opening: calls of every kind, each on the state that the one before left.
fn stream(rng: &mut Rng) -> Cases {
    let stages = cic_settings::stages(rng);
    let r = cic_settings::factor_up_to(rng, 64);
    let mut state = State::opened(stages, r);
    (0..rng.within(4, 24))
        .map(|_| any_call(rng, &mut state))
        .collect()
}

/// From an opening: blocks of many samples at one level, past the first wrap of every integrator.
fn long_run(rng: &mut Rng) -> Cases {
    let stages = cic_settings::stages(rng);
    let r = cic_settings::factor(rng);
    let mut state = State::opened(stages, r);
    let level = rng.within(1 << 20, 1 << 28) as u32;
    let pattern = if rng.one_in(2) {
        level
    } else {
        level.wrapping_neg()
    };
    let most = (64 * r).min(LONGEST);
    (0..rng.within(3, 6))
        .map(|_| {
            let length = rng.within(most / 2, most);
            let input = Lent::pattern(length, pattern, 1);
            let span = samples::span(rng, 70);
            PROCESS_BLOCK.on(&mut state, Buffers::of(input, span))
        })
        .collect()
}

/// A block at 01's limit of 65,536 and around it, which holds for other blocks and not for this one.
fn longest_block(rng: &mut Rng) -> Box<dyn Case> {
    let around = [65_535, 65_536, 65_537, LONGEST];
    let (length, places) = (rng.pick(&around), rng.pick(&around));
    let input = samples::list(rng, length, 4);
    let span = samples::span(rng, places);
    let mut state = midway(rng);
    state.r = state.r.max(16);
    PROCESS_BLOCK.on(&mut state, Buffers::of(input, span))
}

/// A block that is longer than `replay` has room for.
pub fn long(rng: &mut Rng) -> Cases {
    let mut state = midway(rng);
    let length = rng.within(LONGEST, 4 * LONGEST);
    let places = settings::places_around(rng, (state.sample_counter + length) / state.r);
    let input = samples::noise(rng, length);
    let span = samples::span(rng, places);
    vec![PROCESS_BLOCK.on(&mut state, Buffers::of(input, span))]
}

pub fn cases(rng: &mut Rng) -> Cases {
    match rng.below(64) {
        0..=7 => (0..4).map(|_| some_opening(rng)).collect(),
        8..=19 => {
            let mut state = damaged(rng);
            vec![any_call(rng, &mut state)]
        }
        20..=25 => {
            let state = gain_edge(rng);
            gains(&state)
        }
        26..=31 => {
            let mut state = gain_edge(rng);
            vec![PROCESS_SAMPLE_SCALED.on(&mut state, some_sample(rng))]
        }
        32..=55 => {
            let mut state = midway(rng);
            vec![any_call(rng, &mut state)]
        }
        56..=60 => stream(rng),
        61 => fresh_blocks(rng),
        62 => long_run(rng),
        _ => match rng.below(16) {
            0 => vec![longest_block(rng)],
            _ => long_run(rng),
        },
    }
}
