//! Cases of `HbfDecCascade` and `HbfIntCascade`, which differ in what they take and give and in how long a stage's delay is.

use crate::calls::{Buffers, Free, Single, Written};
use crate::case::{Case, Cases, Operation};
use crate::field::fields;
use crate::float_samples;
use crate::lent::Lent;
use crate::refusals;
use crate::rng::Rng;
use crate::samples;
use crate::settings;
use crate::values::Depth;

pub type New<const DELAYS: usize> = Free<Depth, State<DELAYS>>;
pub type Block<const DELAYS: usize> = Single<State<DELAYS>, Buffers<f32, f32>, Written>;
pub type Reset<const DELAYS: usize> = Single<State<DELAYS>, (), ()>;

fields! {
    /// The port's state: the stages' delays one after the other, where the Rust has a state for each.
    pub struct State<const DELAYS: usize> {
        depth: u64,
        delays: [f32; DELAYS],
    }
}

impl<const DELAYS: usize> State<DELAYS> {
    pub fn refusal(&self) -> u32 {
        refusals::cascade(self.depth)
    }

    /// Valid settings, anything in the delays, in those of stages that are not run too.
    fn midway(rng: &mut Rng) -> Self {
        State {
            depth: rng.within(1, 5),
            delays: float_samples::places(rng),
        }
    }

    /// The same, levels alone.
    fn of_levels(rng: &mut Rng) -> Self {
        State {
            depth: rng.within(1, 5),
            delays: float_samples::levels(rng),
        }
    }
}

impl<const DELAYS: usize> Block<DELAYS> {
    pub fn refusal(&self) -> u32 {
        let Buffers { samples, span } = &self.lent;
        refusals::cascade_block(self.state.depth, samples.len(), span.len())
    }
}

/// A cascade, and how its cases are drawn.
pub trait Cascade<const DELAYS: usize> {
    /// How many samples of a stage make how many outputs.
    const TAKES: usize;
    const GIVES: usize;
    const NEW: Operation<New<DELAYS>>;
    const PROCESS: Operation<Block<DELAYS>>;
    const RESET: Operation<Reset<DELAYS>>;

    /// How many samples and outputs a whole frame of the cascade has.
    fn frame(depth: u64) -> (usize, usize) {
        let power = depth.min(6) as u32;
        (Self::TAKES.pow(power), Self::GIVES.pow(power))
    }

    /// Samples and span around a few whole frames, and now and then a length that 7 turns back.
    fn some_block(rng: &mut Rng, state: &mut State<DELAYS>) -> Box<dyn Case> {
        let (takes, gives) = Self::frame(state.depth);
        let (takes, gives) = (takes as u64, gives as u64);
        let frames = match rng.below(16) {
            0 => rng.within(5, 9),
            _ => rng.below(5),
        };
        let around = frames * takes + rng.pick(&[0, 0, 0, 1, takes - 1]);
        let length = around.saturating_sub(rng.below(8) / 7).max(1);
        let places = match rng.below(4) {
            0 => frames * gives + rng.below(gives),
            _ => settings::places_around(rng, frames * gives),
        };
        let mut input = float_samples::list(rng, length);
        let mut span = samples::span(rng, places);
        settings::spoil_block(rng, &mut input, &mut span);
        Self::PROCESS.on(state, Buffers::of(input, span))
    }

    /// At 01's limits and past them. Zeros in the span and as samples keep the record small.
    fn longest_block(rng: &mut Rng) -> Box<dyn Case> {
        let mut state = State::of_levels(rng);
        let input = Lent::pattern(settings::length_around(rng), 0, 0);
        let span = Lent::pattern(settings::length_around(rng), 0, 0);
        Self::PROCESS.on(&mut state, Buffers::of(input, span))
    }

    /// More frames than the Rust runs in one pass, which are 64.
    fn long_block(rng: &mut Rng) -> Box<dyn Case> {
        let mut state = State::midway(rng);
        let (takes, gives) = Self::frame(state.depth);
        let frames = rng.within(63, 130);
        let input = float_samples::list(rng, frames * takes as u64);
        let span = samples::span(rng, frames * gives as u64);
        Self::PROCESS.on(&mut state, Buffers::of(input, span))
    }

    fn any_call(rng: &mut Rng, state: &mut State<DELAYS>) -> Box<dyn Case> {
        match rng.below(16) {
            0 => Self::RESET.on(state, ()),
            _ => Self::some_block(rng, state),
        }
    }

    /// From an opening: calls, each on the state that the one before left.
    fn stream(rng: &mut Rng) -> Cases {
        let depth = rng.within(1, 5);
        let (opening, mut state) = Self::NEW.of(Depth { depth });
        let mut cases = vec![opening];
        cases.extend((0..rng.within(3, 8)).map(|_| Self::any_call(rng, &mut state)));
        cases
    }

    fn opening(depth: u64) -> Cases {
        vec![Self::NEW.of(Depth { depth }).0]
    }

    fn cases(rng: &mut Rng) -> Cases {
        match rng.below(64) {
            0..=5 => Self::opening(rng.below(6)),
            6..=7 => Self::opening(settings::bad_depth(rng)),
            8..=12 => {
                let mut state = State::midway(rng);
                state.depth = settings::bad_depth(rng);
                vec![Self::any_call(rng, &mut state)]
            }
            13..=40 => {
                let mut state = State::midway(rng);
                vec![Self::any_call(rng, &mut state)]
            }
            41 => match rng.below(4) {
                0 => vec![Self::longest_block(rng)],
                _ => vec![Self::long_block(rng)],
            },
            _ => Self::stream(rng),
        }
    }

    /// As long as 01 allows, and of any levels.
    fn long(rng: &mut Rng) -> Cases {
        let mut state = State::of_levels(rng);
        let (takes, gives) = Self::frame(state.depth);
        let (length, places) = settings::long_block(rng, takes as u64, gives as u64);
        let input = float_samples::noise(rng, length);
        let span = samples::span(rng, places);
        vec![Self::PROCESS.on(&mut state, Buffers::of(input, span))]
    }
}
