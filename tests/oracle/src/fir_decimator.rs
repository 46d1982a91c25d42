//! Cases of the streaming `FirDecimator`, which the Rust does not have: its outputs are those of the Rust's `polyphase_decimate_q15` on the whole list.

use crate::archive::q15;
use crate::calls::{Free, Sample, Single};
use crate::case::{Case, Cases, Operation};
use crate::field::{Field, Fields, Member, fields};
use crate::lent::{LONGEST, Lent, Slice};
use crate::polyphase_q15;
use crate::q15_samples;
use crate::refusals;
use crate::rng::Rng;
use crate::settings;
use crate::stream::Lists;

pub type New = Free<Settings, State>;
pub type Step = Single<State, Sample<i16>, Filtered>;
pub type Reset = Single<State, (), ()>;
type Run = Free<Lists<Settings, i16>, Left>;

const NEW: Operation<New> = Operation {
    code: 0x41,
    name: "FirDecimator::new",
    refusal: Some(|call| call.lent.refusal()),
    rust: |call| call.answer = State::opened(&call.lent.taps.elements, call.lent.factor),
    archive: q15::fir_decimator_new,
};

const PROCESS_SAMPLE: Operation<Step> = Operation {
    code: 0x42,
    name: "FirDecimator::process_sample",
    refusal: Some(|call| call.state.refusal()),
    rust: |call| call.answer = Filtered::of(call.state.sample(call.lent.sample)),
    archive: q15::fir_decimator_process_sample,
};

const RESET: Operation<Reset> = Operation {
    code: 0x43,
    name: "FirDecimator::reset",
    refusal: Some(|call| call.state.refusal()),
    rust: |call| call.state = State::opened(call.state.own_taps(), call.state.factor),
    archive: q15::fir_decimator_reset,
};

const RUN: Operation<Run> = Operation {
    code: 0,
    name: "FirDecimator::new, then process_sample for each sample",
    refusal: Some(|call| call.lent.opening.refusal()),
    rust: run,
    archive: run_archive,
};

/// 02, request 7: "The line's FIR limit goes from 64 to 128".
pub const MOST_TAPS: u64 = 128;

fields! {
    /// What a decimator is opened with.
    pub struct Settings {
        factor: u64,
        taps: Slice<i16>,
    }
}

impl Settings {
    fn of(factor: u64, taps: Lent) -> Self {
        Settings {
            factor,
            taps: taps.into(),
        }
    }

    fn refusal(&self) -> u32 {
        refusals::fir_opening(self.taps.len() as u64, self.factor)
    }
}

fields! {
    /// The port's state.
    pub struct State {
        tap_count: u64,
        factor: u64,
        wait: u64,
        taps: [i16; MOST_TAPS as usize],
        delay: [i16; MOST_TAPS as usize],
    }
}

fields! {
    /// One output or none, and whether it was cut.
    pub struct Filtered {
        made: u32,
        output: i16,
        cut: u32,
    }
}

impl Filtered {
    fn of(made: Option<(i16, bool)>) -> Self {
        let (output, cut) = made.unwrap_or_default();
        Filtered {
            made: made.is_some().into(),
            output,
            cut: cut.into(),
        }
    }
}

/// Every output, how many of them were cut, and the state that is left.
#[derive(Clone)]
pub struct Left {
    outputs: Vec<i16>,
    cuts: u64,
    state: State,
}

impl Fields for Left {
    fn fields(&mut self) -> Vec<Field<'_>> {
        let mut fields = vec![
            self.outputs.field().named("outputs"),
            self.cuts.field().named("cuts"),
        ];
        fields.extend(self.state.fields());
        fields
    }

    fn zeros() -> Self {
        Left {
            outputs: Vec::new(),
            cuts: 0,
            state: State::zeros(),
        }
    }
}

impl State {
    /// "wait .. T at opening"; no taps, in the line: zeros, settings too.
    pub fn opened(taps: &[i16], factor: u64) -> Self {
        let mut state = State::zeros();
        if !taps.is_empty() {
            state.tap_count = taps.len() as u64;
            state.factor = factor;
            state.wait = state.tap_count;
            state.taps[..taps.len()].copy_from_slice(taps);
        }
        state
    }

    pub fn refusal(&self) -> u32 {
        refusals::fir_state(self.tap_count, self.factor, self.wait)
    }

    pub fn own_taps(&self) -> &[i16] {
        &self.taps[..self.tap_count as usize]
    }

    /// The output that the sample makes, and whether it was cut: the Rust's, of the list that begins with that output's first sample.
    pub fn sample(&mut self, sample: i16) -> Option<(i16, bool)> {
        if self.tap_count == 0 {
            return Some((sample, false));
        }
        let mut list = match self.tap_count.checked_sub(self.wait) {
            Some(come) => self.delay[..come as usize].to_vec(),
            None => Vec::new(),
        };
        if self.wait <= self.tap_count {
            list.push(sample);
        }
        self.keep(sample);
        let (taps, factor) = (self.own_taps(), self.factor);
        let outputs = polyphase_q15::decimated(taps, factor, &list);
        let cuts = polyphase_q15::decimated_cuts(taps, factor, &list);
        outputs.first().map(|&output| (output, cuts > 0))
    }

    /// "wait is the number of samples up to and with the one that makes the next output .. D after each output". The next output's samples stand at the
    /// front of the delay: one is stored at its place, and an output moves the window by D.
    fn keep(&mut self, sample: i16) {
        let (taps, factor) = (self.tap_count as usize, self.factor as usize);
        if self.wait <= self.tap_count {
            self.delay[taps - self.wait as usize] = sample;
        }
        self.wait -= 1;
        if self.wait == 0 {
            self.wait = self.factor;
            self.delay.copy_within(factor.min(taps)..taps, 0);
        }
    }
}

/// Every output of the list, which the Rust makes of it as a whole; no taps, in the line: the list.
pub fn outputs(taps: &[i16], factor: u64, list: &[i16]) -> Vec<i16> {
    match taps.is_empty() {
        true => list.to_vec(),
        false => polyphase_q15::decimated(taps, factor, list),
    }
}

/// How many of them were cut.
pub fn cuts(taps: &[i16], factor: u64, list: &[i16]) -> u64 {
    match taps.is_empty() {
        true => 0,
        false => polyphase_q15::decimated_cuts(taps, factor, list),
    }
}

fn run(call: &mut Run) {
    let (taps, factor) = (&call.lent.opening.taps.elements, call.lent.opening.factor);
    let list = &call.lent.samples.elements;
    call.answer.outputs = outputs(taps, factor, list);
    call.answer.cuts = cuts(taps, factor, list);
    call.answer.state = State::opened(taps, factor);
    list.iter()
        .for_each(|&sample| call.answer.state.keep(sample));
}

/// Through the archive's opening and its call for one sample: the first refusal's number.
fn run_archive(call: &mut Run) -> u64 {
    let mut opening: New = Single::of((), call.lent.opening.clone());
    let mut refusal = q15::fir_decimator_new(&mut opening);
    let mut step: Step = Single::of(opening.answer, Sample::zeros());
    call.answer = Left::zeros();
    for &sample in &call.lent.samples.elements {
        if refusal != 0 {
            break;
        }
        step.lent.sample = sample;
        refusal = q15::fir_decimator_process_sample(&mut step);
        if step.answer.made != 0 {
            call.answer.outputs.push(step.answer.output);
        }
        call.answer.cuts += u64::from(step.answer.cut);
    }
    call.answer.state = step.state;
    refusal
}

fn some_sample(rng: &mut Rng, state: &mut State) -> Box<dyn Case> {
    let sample = q15_samples::one(rng);
    PROCESS_SAMPLE.on(state, Sample { sample })
}

fn any_call(rng: &mut Rng, state: &mut State) -> Box<dyn Case> {
    match rng.below(12) {
        0 => RESET.on(state, ()),
        _ => some_sample(rng, state),
    }
}

fn some_taps(rng: &mut Rng) -> u64 {
    match rng.below(16) {
        0 => MOST_TAPS,
        1 => rng.within(9, MOST_TAPS),
        2 => 0,
        _ => rng.within(1, 8),
    }
}

/// Settings of which one or both may be outside the limits.
fn some_opening(rng: &mut Rng) -> Box<dyn Case> {
    let taps = match rng.below(4) {
        0 => rng.pick(&[MOST_TAPS + 1, MOST_TAPS + 2, settings::MOST + 1]),
        _ => some_taps(rng),
    };
    let factor = match rng.below(3) {
        0 => settings::bad_factor(rng),
        _ => settings::factor_around(rng, taps),
    };
    NEW.of(Settings::of(factor, q15_samples::list(rng, taps))).0
}

/// Settings and a wait that the line takes, anything in the delay and in the places past T.
pub fn midway(rng: &mut Rng) -> State {
    let tap_count = some_taps(rng);
    let factor = settings::factor_around(rng, tap_count);
    let most = tap_count.max(factor);
    State {
        tap_count,
        factor,
        wait: match rng.below(4) {
            0 => 1,
            1 => rng.pick(&[2, tap_count, factor, most]).clamp(1, most),
            _ => rng.within(1, most),
        },
        taps: q15_samples::places(rng),
        delay: q15_samples::places(rng),
    }
}

/// A state that 15 turns back.
fn damaged(rng: &mut Rng) -> State {
    let mut state = midway(rng);
    let faults = rng.within(1, 7);
    if faults & 1 != 0 {
        state.tap_count = rng.pick(&[65, 66, 1 << 32, (1 << 32) + 1, u64::MAX]);
    }
    if faults & 2 != 0 {
        state.factor = settings::bad_factor(rng);
    }
    if faults & 4 != 0 {
        let most = state.tap_count.max(state.factor);
        let past = most.saturating_add(1);
        state.wait = rng.pick(&[0, 0, past, past.saturating_add(1 << 32), u64::MAX]);
    }
    state
}

/// From an opening, now and then a refused one: calls, each on the state that the one before left.
fn stream(rng: &mut Rng) -> Cases {
    let taps = some_taps(rng);
    let factor = match rng.below(2) {
        0 => rng.within(1, 8),
        _ => settings::factor_around(rng, taps).min(70),
    };
    let (opening, mut state) = NEW.of(Settings::of(factor, q15_samples::list(rng, taps)));
    let mut cases = vec![opening];
    let calls = rng.within(4, 24) + rng.pick(&[0, taps]);
    cases.extend((0..calls).map(|_| match rng.below(40) {
        0 => RESET.on(&mut state, ()),
        _ => some_sample(rng, &mut state),
    }));
    cases
}

pub fn cases(rng: &mut Rng) -> Cases {
    match rng.below(32) {
        0..=5 => vec![some_opening(rng)],
        6..=11 => {
            let mut state = damaged(rng);
            vec![any_call(rng, &mut state)]
        }
        12..=29 => {
            let mut state = midway(rng);
            vec![any_call(rng, &mut state)]
        }
        _ => stream(rng),
    }
}

fn some_run(rng: &mut Rng, samples: Lent) -> Cases {
    let taps = some_taps(rng);
    let factor = settings::factor_around(rng, taps);
    let settings = Settings::of(factor, q15_samples::list(rng, taps));
    vec![RUN.of(Lists::of(settings, samples)).0]
}

/// Lists as a whole.
pub fn more(rng: &mut Rng) -> Cases {
    let length = rng.below(400);
    let samples = q15_samples::list(rng, length);
    some_run(rng, samples)
}

pub fn long(rng: &mut Rng) -> Cases {
    let length = rng.within(LONGEST / 2, LONGEST);
    let samples = q15_samples::noise(rng, length);
    some_run(rng, samples)
}
