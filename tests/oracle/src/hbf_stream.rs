//! Cases of the streaming `HbfStream`, which the Rust does not have: each stage is the Rust's.

use crate::archive::float;
use crate::calls::{Free, Made, Sample, Single};
use crate::case::{Case, Cases, Operation};
use crate::field::{Fields, fields};
use crate::float_samples;
use crate::lent::{LONGEST, Lent, Slice};
use crate::refusals;
use crate::rng::Rng;
use crate::settings;
use crate::sizes::front;
use crate::stream::{Lists, Stream};
use crate::values::Depth;
use embedded_dsp::resampling::{HBF_TAPS, HbfDec, HbfDecCascade};

pub type New = Free<Depth, State>;
pub type Step = Single<State, Sample<f32>, Made<f32>>;
pub type Reset = Single<State, (), ()>;
type Run = Stream<Depth, State, f32>;

const NEW: Operation<New> = Operation {
    code: 0xa1,
    name: "HbfStream::new",
    refusal: Some(|call| refusals::cascade_opening(call.lent.depth)),
    rust: |call| call.answer = State::opened(call.lent.depth),
    archive: float::hbf_stream_new,
};

const PROCESS_SAMPLE: Operation<Step> = Operation {
    code: 0xa2,
    name: "HbfStream::process_sample",
    refusal: Some(|call| call.state.refusal()),
    rust: |call| call.answer = call.state.sample(call.lent.sample).into(),
    archive: float::hbf_stream_process_sample,
};

const RESET: Operation<Reset> = Operation {
    code: 0xa3,
    name: "HbfStream::reset",
    refusal: Some(|call| call.state.refusal()),
    rust: |call| call.state = State::opened(call.state.depth),
    archive: float::hbf_stream_reset,
};

const RUN: Operation<Run> = Operation {
    code: 0,
    name: "HbfStream::new, then process_sample for each sample",
    refusal: Some(|call| refusals::cascade_opening(call.lent.opening.depth)),
    rust: |call| {
        let (depth, list) = (call.lent.opening.depth, &call.lent.samples.elements);
        (call.answer.state, call.answer.outputs) = whole_list(depth, list);
    },
    archive: |call| call.run(float::hbf_stream_new, float::hbf_stream_process_sample),
};

fields! {
    /// The port's state.
    pub struct State {
        depth: u64,
        counts: [u64; 5],
        delays: [f32; 480],
        held: [f32; 5],
    }
}

impl State {
    pub fn opened(depth: u64) -> Self {
        State {
            depth,
            ..State::zeros()
        }
    }

    pub fn refusal(&self) -> u32 {
        refusals::held_cascade(self.depth, &self.counts)
    }

    /// "The line holds an odd sample until its partner comes"; a stage is the Rust's.
    pub fn sample(&mut self, sample: f32) -> Option<f32> {
        let mut rust =
            HbfDecCascade::<5>::from_parts(self.delays.as_chunks().0.try_into().unwrap());
        let mut value = sample;
        for stage in 0..self.depth as usize {
            if self.counts[stage] == 0 {
                self.held[stage] = value;
                self.counts[stage] = 1;
                self.delays = front(rust.parts().as_flattened());
                return None;
            }
            value = rust.stage_pair(stage, [self.held[stage], value]);
            self.held[stage] = 0.0;
            self.counts[stage] = 0;
        }
        self.delays = front(rust.parts().as_flattened());
        Some(value)
    }
}

/// One of the Rust's stages on a whole list: its outputs, and its delay after them.
fn whole<const M: usize>(taps: [f32; M], list: &[f32]) -> (Vec<f32>, [f32; 96]) {
    let mut stage = HbfDec::new(taps);
    let mut outputs = vec![0.0; list.len() / 2];
    stage.process(list, &mut outputs);
    (outputs, stage.parts().1)
}

/// What a list from an opening leads to: the state, and every output so far.
fn whole_list(depth: u64, list: &[f32]) -> (State, Vec<f32>) {
    let mut state = State::opened(depth);
    let mut values = list.to_vec();
    for stage in 0..depth as usize {
        let (outputs, delay) = match stage {
            0 => whole(HBF_TAPS.4.0, &values),
            1 => whole(HBF_TAPS.3.0, &values),
            2 => whole(HBF_TAPS.2.0, &values),
            3 => whole(HBF_TAPS.1.0, &values),
            _ => whole(HBF_TAPS.0.0, &values),
        };
        state.delays[96 * stage..][..96].copy_from_slice(&delay);
        if values.len() % 2 == 1 {
            state.held[stage] = values[values.len() - 1];
            state.counts[stage] = 1;
        }
        values = outputs;
    }
    (state, values)
}

/// Every output of a list from an opening.
pub fn outputs(depth: u64, list: &[f32]) -> Vec<f32> {
    whole_list(depth, list).1
}

fn any_call(rng: &mut Rng, state: &mut State) -> Box<dyn Case> {
    match rng.below(8) {
        0 => RESET.on(state, ()),
        _ => {
            let sample = float_samples::one(rng);
            PROCESS_SAMPLE.on(state, Sample { sample })
        }
    }
}

/// Settings and counts that the line takes, anything held and in the delays, and in what belongs to stages that are not run. Often the next sample goes through.
pub fn midway(rng: &mut Rng) -> State {
    let depth = rng.below(6);
    let full = rng.one_in(2);
    State {
        depth,
        delays: float_samples::places(rng),
        held: float_samples::places(rng),
        counts: std::array::from_fn(|stage| match (stage as u64) < depth {
            true if full => 1,
            true => rng.below(2),
            false => rng.pick(&[0, 1, 2, u64::MAX]),
        }),
    }
}

/// A state that 15 turns back.
fn damaged(rng: &mut Rng) -> State {
    let mut state = midway(rng);
    let faults = rng.within(1, 3);
    if faults & 1 != 0 {
        let stage = rng.below(5) as usize;
        state.depth = state.depth.max(stage as u64 + 1);
        state.counts[stage] = rng.pick(&[2, 3, 1 << 32, (1 << 32) + 1, u64::MAX]);
    }
    if faults & 2 != 0 {
        state.depth = rng.pick(&[6, 7, 1 << 32, (1 << 32) + 1, u64::MAX]);
    }
    state
}

/// Some samples after a list from an opening, often where whole frames end, each on the state that the whole list so far leads to.
fn stream(rng: &mut Rng) -> Cases {
    let depth = rng.within(1, 5);
    let start = (rng.below(40) << depth).saturating_sub(rng.within(1, 3)) as usize;
    let calls = rng.within(1, 4) as usize;
    let list: Slice<f32> = float_samples::list(rng, (start + calls) as u64).into();
    (start..start + calls)
        .map(|i| {
            let (mut state, _) = whole_list(depth, &list.elements[..i]);
            let sample = list.elements[i];
            PROCESS_SAMPLE.on(&mut state, Sample { sample })
        })
        .collect()
}

pub fn cases(rng: &mut Rng) -> Cases {
    match rng.below(32) {
        0..=2 => {
            let depth = rng.within(1, 5);
            vec![NEW.of(Depth { depth }).0]
        }
        3 => {
            let depth = settings::bad_depth(rng);
            vec![NEW.of(Depth { depth }).0]
        }
        4..=7 => {
            let mut state = damaged(rng);
            vec![any_call(rng, &mut state)]
        }
        8..=19 => {
            let mut state = midway(rng);
            vec![any_call(rng, &mut state)]
        }
        _ => stream(rng),
    }
}

fn some_run(rng: &mut Rng, samples: Lent) -> Cases {
    let depth = rng.below(6);
    vec![RUN.of(Lists::of(Depth { depth }, samples)).0]
}

/// Lists as a whole.
pub fn more(rng: &mut Rng) -> Cases {
    let length = rng.below(400);
    let samples = float_samples::list(rng, length);
    some_run(rng, samples)
}

pub fn long(rng: &mut Rng) -> Cases {
    let length = rng.within(LONGEST / 2, LONGEST);
    let samples = float_samples::noise(rng, length);
    some_run(rng, samples)
}
