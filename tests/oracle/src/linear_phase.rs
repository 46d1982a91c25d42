//! Cases of `LinearPhaseFir`. What is expected is the Rust's, whose kind and M are a type and whose state is longer than what it keeps (`../filters.rs`); it has no reset.

use crate::archive::phase as archive;
use crate::calls::{Buffers, Free, Sample, Single, Value, Written};
use crate::case::{Case, Cases, Operation};
use crate::field::{Fields, fields};
use crate::float_samples;
use crate::half_band;
use crate::lent::{LONGEST, Lent, Slice};
use crate::refusals;
use crate::rng::Rng;
use crate::samples;
use crate::settings;
use crate::stream::Left;
use filters::Call;

pub type New = Free<Opening, State>;
pub type Step = Single<State, Sample<f32>, Value<f32>>;
pub type Block = Single<State, Buffers<f32, f32>, Written>;
pub type Inplace = Single<State, Places, Written>;
pub type Length = Single<State, (), Value<u64>>;
pub type Reset = Single<State, (), ()>;
type Cut = Free<Pieces, Left<State, f32>>;

const NEW: Operation<New> = Operation {
    code: 0xe1,
    name: "LinearPhaseFir::new",
    refusal: Some(|call| call.lent.refusal()),
    rust: |call| call.answer = State::opened(&call.lent),
    archive: archive::new,
};

const PROCESS: Operation<Step> = Operation {
    code: 0xe2,
    name: "LinearPhaseFir::process",
    refusal: Some(|call| call.state.refusal()),
    rust: |call| call.answer.value = call.state.run(Call::Process, &[call.lent.sample])[0],
    archive: archive::process,
};

const BLOCK: Operation<Block> = Operation {
    code: 0xe3,
    name: "LinearPhaseFir::block",
    refusal: Some(|call| {
        let Buffers { samples, span } = &call.lent;
        refusals::linear_phase_block(call.state.m, samples.len(), span.len())
    }),
    rust: |call| {
        let Buffers { samples, span } = &mut call.lent;
        span.elements = call.state.run(Call::Block, &samples.elements);
        call.answer.written = span.len() as u64;
    },
    archive: archive::block,
};

const INPLACE: Operation<Inplace> = Operation {
    code: 0xe4,
    name: "LinearPhaseFir::inplace",
    refusal: Some(|call| call.state.refusal()),
    rust: |call| {
        let samples = &mut call.lent.samples;
        samples.elements = call.state.run(Call::Inplace, &samples.elements);
        call.answer.written = samples.len() as u64;
    },
    archive: archive::inplace,
};

const RESPONSE_LENGTH: Operation<Length> = Operation {
    code: 0xe5,
    name: "LinearPhaseFir::response_length",
    refusal: Some(|call| call.state.refusal()),
    rust: |call| call.answer.value = call.state.kept() as u64,
    archive: archive::response_length,
};

const RESET: Operation<Reset> = Operation {
    code: 0xe6,
    name: "LinearPhaseFir::reset",
    refusal: Some(|call| call.state.refusal()),
    rust: |call| call.state.restart(),
    archive: archive::reset,
};

/// "cutting a stream differently changes nothing": the Rust gets the list as one block.
const CUT: Operation<Cut> = Operation {
    code: 0,
    name: "LinearPhaseFir::new, then the samples in pieces",
    refusal: Some(|call| call.lent.opening().refusal()),
    rust: |call| {
        let mut state = State::opened(&call.lent.opening());
        call.answer.outputs = state.run(Call::Block, &call.lent.samples.elements);
        call.answer.state = state;
    },
    archive: Cut::in_pieces,
};

fields! {
    /// What a filter is opened with. A number that is not 0 says yes.
    pub struct Opening {
        odd: u64,
        antisymmetric: u64,
        taps: Slice<f32>,
    }
}

fields! {
    /// The port's state: of the Rust's state array what the filter keeps, in front of 46 places.
    pub struct State {
        m: u64,
        odd: u64,
        antisymmetric: u64,
        taps: [f32; 23],
        delay: [f32; 46],
    }
}

fields! {
    /// Samples whose outputs come into their places.
    pub struct Places {
        samples: Slice<f32>,
    }
}

fields! {
    /// What a filter is opened with, a list of samples, and how many of them the calls take; what is left is one more call's.
    pub struct Pieces {
        odd: u64,
        antisymmetric: u64,
        taps: Slice<f32>,
        samples: Slice<f32>,
        pieces: Slice<u8>,
    }
}

impl Opening {
    fn refusal(&self) -> u32 {
        refusals::linear_phase_opening(self.taps.len() as u64)
    }
}

impl State {
    fn opened(opening: &Opening) -> Self {
        let taps = &opening.taps.elements;
        let mut state = State {
            m: taps.len() as u64,
            odd: (opening.odd != 0).into(),
            antisymmetric: (opening.antisymmetric != 0).into(),
            ..State::zeros()
        };
        state.taps[..taps.len()].copy_from_slice(taps);
        state
    }

    fn refusal(&self) -> u32 {
        refusals::linear_phase(self.m)
    }

    /// The samples that the Rust keeps: its LEN.
    fn kept(&self) -> usize {
        filters::len(self.odd != 0, self.antisymmetric != 0, self.m as usize)
    }

    fn run(&mut self, call: Call, samples: &[f32]) -> Vec<f32> {
        let kept = self.kept();
        let taps = &self.taps[..self.m as usize];
        let delay = &mut self.delay[..kept];
        let (odd, antisymmetric) = (self.odd != 0, self.antisymmetric != 0);
        filters::run(odd, antisymmetric, taps, delay, call, samples)
    }

    /// A fresh opening with the state's own taps: what stands behind them is no part of it.
    fn restart(&mut self) {
        self.taps[self.m as usize..].fill(0.0);
        self.delay.fill(0.0);
    }

    /// Valid settings, anything in the delay and in the places behind M and behind LEN.
    fn midway(rng: &mut Rng) -> Self {
        State {
            m: half_band::some_taps(rng),
            odd: rng.below(2),
            antisymmetric: rng.below(2),
            taps: float_samples::places(rng),
            delay: float_samples::places(rng),
        }
    }

    /// The same, levels alone.
    fn of_levels(rng: &mut Rng) -> Self {
        State {
            taps: float_samples::levels(rng),
            delay: float_samples::levels(rng),
            ..State::midway(rng)
        }
    }
}

impl Places {
    fn of(samples: Lent) -> Self {
        Places {
            samples: Slice::span(samples),
        }
    }
}

impl Pieces {
    fn opening(&self) -> Opening {
        Opening {
            odd: self.odd,
            antisymmetric: self.antisymmetric,
            taps: self.taps.clone(),
        }
    }
}

impl Cut {
    /// Through the archive's calls by turns: the first refusal's number.
    fn in_pieces(&mut self) -> u64 {
        let mut opening = Single::of((), self.lent.opening());
        let mut refusal = archive::new(&mut opening);
        self.answer.state = opening.answer;
        self.answer.outputs.clear();
        let mut left = &self.lent.samples.elements[..];
        let pieces = self.lent.pieces.elements.iter();
        let lengths = pieces.map(|piece| usize::from(*piece)).chain([left.len()]);
        for (turn, length) in lengths.enumerate() {
            if refusal != 0 {
                break;
            }
            let (piece, rest) = left.split_at(length.min(left.len()));
            let outputs = &mut self.answer.outputs;
            refusal = match turn % 3 {
                0 => block(&mut self.answer.state, piece, outputs),
                1 => inplace(&mut self.answer.state, piece, outputs),
                _ => one_by_one(&mut self.answer.state, piece, outputs),
            };
            left = rest;
        }
        refusal
    }
}

fn block(state: &mut State, piece: &[f32], outputs: &mut Vec<f32>) -> u64 {
    let buffers = Buffers {
        samples: piece.to_vec().into(),
        span: vec![0.0; piece.len()].into(),
    };
    let mut call = Single::of(state.clone(), buffers);
    let refusal = archive::block(&mut call);
    outputs.extend(&call.lent.span.elements);
    *state = call.state;
    refusal
}

fn inplace(state: &mut State, piece: &[f32], outputs: &mut Vec<f32>) -> u64 {
    let samples = piece.to_vec().into();
    let mut call = Single::of(state.clone(), Places { samples });
    let refusal = archive::inplace(&mut call);
    outputs.extend(&call.lent.samples.elements);
    *state = call.state;
    refusal
}

fn one_by_one(state: &mut State, piece: &[f32], outputs: &mut Vec<f32>) -> u64 {
    let mut call = Step::of(state.clone(), Sample::zeros());
    let mut refusal = 0;
    for &sample in piece {
        call.lent.sample = sample;
        refusal = refusal.max(archive::process(&mut call));
        outputs.push(call.answer.value);
    }
    *state = call.state;
    refusal
}

fn some_length(rng: &mut Rng) -> u64 {
    match rng.below(16) {
        0 => rng.within(13, 200),
        1 => 0,
        _ => rng.within(1, 12),
    }
}

/// Now and then with a span of another length, which 20 turns back.
fn some_block(rng: &mut Rng, state: &mut State) -> Box<dyn Case> {
    let length = some_length(rng);
    let places = match rng.below(8) {
        0 => settings::places_around(rng, length),
        _ => length,
    };
    let input = float_samples::list(rng, length);
    let span = samples::span(rng, places);
    BLOCK.on(state, Buffers::of(input, span))
}

fn some_inplace(rng: &mut Rng, state: &mut State) -> Box<dyn Case> {
    let length = some_length(rng);
    let samples = float_samples::list(rng, length);
    INPLACE.on(state, Places::of(samples))
}

/// 01's limit of a block, which is none of these filters': "7 does not apply". Zeros in the span and as samples keep the record small.
fn longest_block(rng: &mut Rng) -> Box<dyn Case> {
    let mut state = State::of_levels(rng);
    let length = settings::length_around(rng);
    let zeros = Lent::pattern(length, 0, 0);
    match rng.below(3) {
        0 => INPLACE.on(&mut state, Places::of(zeros)),
        1 => BLOCK.on(&mut state, Buffers::of(zeros.clone(), zeros)),
        _ => {
            let places = settings::length_around(rng);
            let span = Lent::pattern(places, 0, 0);
            BLOCK.on(&mut state, Buffers::of(zeros, span))
        }
    }
}

fn any_call(rng: &mut Rng, state: &mut State) -> Box<dyn Case> {
    match rng.below(16) {
        0 => RESET.on(state, ()),
        1 => RESPONSE_LENGTH.on(state, ()),
        2..=6 => some_block(rng, state),
        7..=10 => some_inplace(rng, state),
        _ => {
            let sample = float_samples::one(rng);
            PROCESS.on(state, Sample { sample })
        }
    }
}

fn opening(rng: &mut Rng, taps: u64) -> Opening {
    Opening {
        odd: rng.below(2),
        antisymmetric: rng.below(2),
        taps: float_samples::list(rng, taps).into(),
    }
}

fn some_opening(rng: &mut Rng) -> Opening {
    let taps = match rng.below(4) {
        0 => rng.pick(&[0, 0, 24, 25, settings::MOST]),
        _ => half_band::some_taps(rng),
    };
    opening(rng, taps)
}

/// From an opening: calls, each on the state that the one before left.
fn stream(rng: &mut Rng) -> Cases {
    let taps = half_band::some_taps(rng);
    let (opening, mut state) = NEW.of(opening(rng, taps));
    let mut cases = vec![opening];
    cases.extend((0..rng.within(3, 10)).map(|_| any_call(rng, &mut state)));
    cases
}

pub fn cases(rng: &mut Rng) -> Cases {
    match rng.below(64) {
        0..=7 => vec![NEW.of(some_opening(rng)).0],
        8..=13 => {
            let mut state = State::midway(rng);
            state.m = half_band::bad_taps(rng);
            vec![any_call(rng, &mut state)]
        }
        14..=57 => {
            let mut state = State::midway(rng);
            vec![any_call(rng, &mut state)]
        }
        58 if rng.one_in(4) => vec![longest_block(rng)],
        _ => stream(rng),
    }
}

/// A yes or a no, and any number for it.
fn any_flag(rng: &mut Rng) -> u64 {
    let any = rng.next();
    rng.pick(&[0, 0, 0, 1, 2, 256, 1 << 32, u64::MAX, any])
}

fn in_pieces(rng: &mut Rng, samples: Lent) -> Cases {
    let pieces = rng.below(40);
    let most = rng.pick(&[2, 12, 100, 256]);
    let lengths = (0..pieces).map(|_| rng.below(most) as u32).collect();
    let Opening { taps, .. } = some_opening(rng);
    let pieces = Pieces {
        odd: any_flag(rng),
        antisymmetric: any_flag(rng),
        taps,
        samples: samples.into(),
        pieces: Lent::listed(lengths).into(),
    };
    vec![CUT.of(pieces).0]
}

/// Flags of any number, and lists in pieces.
pub fn more(rng: &mut Rng) -> Cases {
    match rng.below(4) {
        0 => {
            let mut opening = some_opening(rng);
            opening.odd = any_flag(rng);
            opening.antisymmetric = any_flag(rng);
            vec![NEW.of(opening).0]
        }
        1 => {
            let mut state = State::midway(rng);
            state.odd = any_flag(rng);
            state.antisymmetric = any_flag(rng);
            vec![any_call(rng, &mut state)]
        }
        _ => {
            let length = rng.below(400);
            let samples = float_samples::list(rng, length);
            in_pieces(rng, samples)
        }
    }
}

/// Past 01's limit of a block, and of any levels.
pub fn long(rng: &mut Rng) -> Cases {
    let length = rng.within(LONGEST / 2, 2 * LONGEST);
    let samples = float_samples::noise(rng, length);
    let mut state = State::of_levels(rng);
    match rng.below(3) {
        0 => vec![INPLACE.on(&mut state, Places::of(samples))],
        1 => {
            let span = samples::span(rng, length);
            vec![BLOCK.on(&mut state, Buffers::of(samples, span))]
        }
        _ => in_pieces(rng, samples),
    }
}
