//! `HbfDec` of the Rust, for the half-band cases.

use crate::archive::float;
use crate::calls::{Single, Value};
use crate::case::Operation;
use crate::field::fields;
use crate::float_samples;
use crate::half_band::{Block, HalfBand, New, Reset, State};
use crate::rng::Rng;
use crate::sizes::{front, with_half_band};
use embedded_dsp::resampling::HbfDec;

pub type Step = Single<State<96>, Pair, Value<f32>>;

fields! {
    /// What one step takes.
    pub struct Pair {
        a: f32,
        b: f32,
    }
}

pub struct Decimator;

impl HalfBand<96> for Decimator {
    const TAKES: u64 = 2;
    const GIVES: u64 = 1;
    type Samples = Pair;
    type Outputs = Value<f32>;

    const NEW: Operation<New<96>> = Operation {
        code: 0x61,
        name: "HbfDec::new",
        refusal: Some(New::refusal),
        rust: |call| with_half_band!(call.lent.taps.len(), new(call)),
        archive: float::hbf_dec_new,
    };

    const STEP: Operation<Step> = Operation {
        code: 0x62,
        name: "HbfDec::process_pair",
        refusal: Some(|call| call.state.refusal()),
        rust: |call| with_half_band!(call.state.m, pair(call)),
        archive: float::hbf_dec_process_pair,
    };

    const PROCESS: Operation<Block<96>> = Operation {
        code: 0x63,
        name: "HbfDec::process",
        refusal: Some(Block::refusal),
        rust: |call| with_half_band!(call.state.m, process(call)),
        archive: float::hbf_dec_process,
    };

    const RESET: Operation<Reset<96>> = Operation {
        code: 0x64,
        name: "HbfDec::reset",
        refusal: Some(|call| call.state.refusal()),
        rust: |call| with_half_band!(call.state.m, reset(call)),
        archive: float::hbf_dec_reset,
    };

    fn some_samples(rng: &mut Rng) -> Pair {
        Pair {
            a: float_samples::one(rng),
            b: float_samples::one(rng),
        }
    }
}

fn new<const M: usize>(call: &mut New<96>) {
    let taps = front(&call.lent.taps.elements);
    call.open(HbfDec::<M>::new(taps).parts().1);
}

fn rust<const M: usize>(state: &State<96>) -> HbfDec<M> {
    HbfDec::from_parts(front(&state.coeffs), state.delay)
}

fn pair<const M: usize>(call: &mut Step) {
    let mut filter = rust::<M>(&call.state);
    call.answer.value = filter.process_pair([call.lent.a, call.lent.b]);
    call.state.delay = filter.parts().1;
}

fn process<const M: usize>(call: &mut Block<96>) {
    let mut filter = rust::<M>(&call.state);
    filter.process(&call.lent.samples.elements, &mut call.lent.span.elements);
    call.state.delay = filter.parts().1;
    call.answer.written = call.lent.whole(2, 1);
}

fn reset<const M: usize>(call: &mut Reset<96>) {
    let mut filter = rust::<M>(&call.state);
    filter.reset();
    call.state.restart(filter.parts().1);
}
