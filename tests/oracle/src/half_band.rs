//! Cases of `HbfDec` and `HbfInt`, which differ in what they take and give and in how long the delay is.

use crate::calls::{Buffers, Free, Single, Written};
use crate::case::{Case, Cases, Operation};
use crate::field::{Fields, fields};
use crate::float_samples;
use crate::lent::{Lent, Slice};
use crate::refusals;
use crate::rng::Rng;
use crate::samples;
use crate::settings;

const MOST_TAPS: u64 = 23;

pub type New<const DELAY: usize> = Free<Taps, State<DELAY>>;
pub type Block<const DELAY: usize> = Single<State<DELAY>, Buffers<f32, f32>, Written>;
pub type Reset<const DELAY: usize> = Single<State<DELAY>, (), ()>;

fields! {
    /// What a filter is opened with.
    pub struct Taps {
        taps: Slice<f32>,
    }
}

fields! {
    /// The port's state: the Rust has M as a constant, and M places for 23.
    pub struct State<const DELAY: usize> {
        m: u64,
        coeffs: [f32; 23],
        delay: [f32; DELAY],
    }
}

impl<const DELAY: usize> New<DELAY> {
    pub fn refusal(&self) -> u32 {
        refusals::half_band_opening(self.lent.taps.len() as u64)
    }

    /// The taps in front, and the delay that the Rust begins with.
    pub fn open(&mut self, delay: [f32; DELAY]) {
        let taps = &self.lent.taps.elements;
        self.answer.m = taps.len() as u64;
        self.answer.coeffs[..taps.len()].copy_from_slice(taps);
        self.answer.delay = delay;
    }
}

impl<const DELAY: usize> State<DELAY> {
    pub fn refusal(&self) -> u32 {
        refusals::half_band(self.m)
    }

    /// A fresh opening with the state's own taps: the Rust clears the delay, and what stands behind the taps is no part of it.
    pub fn restart(&mut self, delay: [f32; DELAY]) {
        self.delay = delay;
        self.coeffs[self.m as usize..].fill(0.0);
    }

    /// Valid settings, anything in the delay and in the places past M and past the window.
    fn midway(rng: &mut Rng) -> Self {
        State {
            m: some_taps(rng),
            coeffs: float_samples::places(rng),
            delay: float_samples::places(rng),
        }
    }

    /// The same, levels alone.
    fn of_levels(rng: &mut Rng) -> Self {
        State {
            m: some_taps(rng),
            coeffs: float_samples::levels(rng),
            delay: float_samples::levels(rng),
        }
    }
}

impl<const DELAY: usize> Block<DELAY> {
    pub fn refusal(&self) -> u32 {
        let Buffers { samples, span } = &self.lent;
        refusals::half_band_block(self.state.m, samples.len(), span.len())
    }
}

pub fn some_taps(rng: &mut Rng) -> u64 {
    match rng.below(4) {
        0 => rng.pick(&[1, 2, 22, 23]),
        1 => rng.within(1, MOST_TAPS),
        _ => rng.within(1, 6),
    }
}

pub fn bad_taps(rng: &mut Rng) -> u64 {
    rng.pick(&[0, 24, 25, 1 << 32, (1 << 32) + 1, u64::MAX])
}

fn taps(rng: &mut Rng, count: u64) -> Taps {
    Taps {
        taps: float_samples::list(rng, count).into(),
    }
}

/// A filter, and how its cases are drawn.
pub trait HalfBand<const DELAY: usize> {
    /// How many samples a step takes, and how many outputs it gives.
    const TAKES: u64;
    const GIVES: u64;
    type Samples: Fields;
    type Outputs: Fields;
    const NEW: Operation<New<DELAY>>;
    const STEP: Operation<Single<State<DELAY>, Self::Samples, Self::Outputs>>;
    const PROCESS: Operation<Block<DELAY>>;
    const RESET: Operation<Reset<DELAY>>;

    fn some_samples(rng: &mut Rng) -> Self::Samples;

    /// A block of about so many steps, with samples and span around them, and now and then a length that 7 turns back.
    fn some_block(rng: &mut Rng, state: &mut State<DELAY>) -> Box<dyn Case> {
        let steps = match rng.below(16) {
            0 => rng.within(13, 60),
            1 => 0,
            _ => rng.within(1, 12),
        };
        let length = (steps * Self::TAKES + rng.below(2)).max(1);
        let places = settings::places_around(rng, steps * Self::GIVES);
        let mut input = float_samples::list(rng, length);
        let mut span = samples::span(rng, places);
        settings::spoil_block(rng, &mut input, &mut span);
        Self::PROCESS.on(state, Buffers::of(input, span))
    }

    /// At 01's limits and past them. Zeros in the span and as samples keep the record small.
    fn longest_block(rng: &mut Rng) -> Box<dyn Case> {
        let (few, long) = (rng.within(1, 60), settings::length_around(rng));
        let (length, places) = match rng.below(3) {
            0 => (few, long),
            1 => (long, few),
            _ => (long, settings::length_around(rng)),
        };
        let mut state = State::of_levels(rng);
        let input = Lent::pattern(length, 0, 0);
        let span = Lent::pattern(places, 0, 0);
        Self::PROCESS.on(&mut state, Buffers::of(input, span))
    }

    fn any_call(rng: &mut Rng, state: &mut State<DELAY>) -> Box<dyn Case> {
        match rng.below(16) {
            0 => Self::RESET.on(state, ()),
            1..=7 => Self::some_block(rng, state),
            _ => Self::STEP.on(state, Self::some_samples(rng)),
        }
    }

    fn some_opening(rng: &mut Rng) -> Box<dyn Case> {
        let count = match rng.below(4) {
            0 => rng.pick(&[0, 0, 24, 25, settings::MOST]),
            _ => some_taps(rng),
        };
        Self::NEW.of(taps(rng, count)).0
    }

    /// From an opening: calls, each on the state that the one before left.
    fn stream(rng: &mut Rng) -> Cases {
        let count = some_taps(rng);
        let (opening, mut state) = Self::NEW.of(taps(rng, count));
        let mut cases = vec![opening];
        cases.extend((0..rng.within(3, 10)).map(|_| Self::any_call(rng, &mut state)));
        cases
    }

    fn cases(rng: &mut Rng) -> Cases {
        match rng.below(64) {
            0..=7 => vec![Self::some_opening(rng)],
            8..=13 => {
                let mut state = State::midway(rng);
                state.m = bad_taps(rng);
                vec![Self::any_call(rng, &mut state)]
            }
            14..=57 => {
                let mut state = State::midway(rng);
                vec![Self::any_call(rng, &mut state)]
            }
            58 if rng.one_in(4) => vec![Self::longest_block(rng)],
            _ => Self::stream(rng),
        }
    }

    /// As long as 01 allows, and of any levels.
    fn long(rng: &mut Rng) -> Cases {
        let mut state = State::of_levels(rng);
        let (length, places) = settings::long_block(rng, Self::TAKES, Self::GIVES);
        let input = float_samples::noise(rng, length);
        let span = samples::span(rng, places);
        vec![Self::PROCESS.on(&mut state, Buffers::of(input, span))]
    }
}
