//! `HbfInt` of the Rust, for the half-band cases.

use crate::archive::float;
use crate::calls::{Sample, Single};
use crate::case::Operation;
use crate::field::fields;
use crate::float_samples;
use crate::half_band::{Block, HalfBand, New, Reset, State};
use crate::rng::Rng;
use crate::sizes::{front, with_half_band};
use embedded_dsp::resampling::HbfInt;

pub type Step = Single<State<48>, Sample<f32>, Outputs>;

fields! {
    /// What one step gives.
    pub struct Outputs {
        even: f32,
        odd: f32,
    }
}

pub struct Interpolator;

impl HalfBand<48> for Interpolator {
    const TAKES: u64 = 1;
    const GIVES: u64 = 2;
    type Samples = Sample<f32>;
    type Outputs = Outputs;

    const NEW: Operation<New<48>> = Operation {
        code: 0x71,
        name: "HbfInt::new",
        refusal: Some(New::refusal),
        rust: |call| with_half_band!(call.lent.taps.len(), new(call)),
        archive: float::hbf_int_new,
    };

    const STEP: Operation<Step> = Operation {
        code: 0x72,
        name: "HbfInt::process_sample",
        refusal: Some(|call| call.state.refusal()),
        rust: |call| with_half_band!(call.state.m, sample(call)),
        archive: float::hbf_int_process_sample,
    };

    const PROCESS: Operation<Block<48>> = Operation {
        code: 0x73,
        name: "HbfInt::process",
        refusal: Some(Block::refusal),
        rust: |call| with_half_band!(call.state.m, process(call)),
        archive: float::hbf_int_process,
    };

    const RESET: Operation<Reset<48>> = Operation {
        code: 0x74,
        name: "HbfInt::reset",
        refusal: Some(|call| call.state.refusal()),
        rust: |call| with_half_band!(call.state.m, reset(call)),
        archive: float::hbf_int_reset,
    };

    fn some_samples(rng: &mut Rng) -> Sample<f32> {
        Sample {
            sample: float_samples::one(rng),
        }
    }
}

fn new<const M: usize>(call: &mut New<48>) {
    let taps = front(&call.lent.taps.elements);
    call.open(HbfInt::<M>::new(taps).parts().1);
}

fn rust<const M: usize>(state: &State<48>) -> HbfInt<M> {
    HbfInt::from_parts(front(&state.coeffs), state.delay)
}

fn sample<const M: usize>(call: &mut Step) {
    let mut filter = rust::<M>(&call.state);
    [call.answer.even, call.answer.odd] = filter.process_sample(call.lent.sample);
    call.state.delay = filter.parts().1;
}

fn process<const M: usize>(call: &mut Block<48>) {
    let mut filter = rust::<M>(&call.state);
    filter.process(&call.lent.samples.elements, &mut call.lent.span.elements);
    call.state.delay = filter.parts().1;
    call.answer.written = call.lent.whole(1, 2);
}

fn reset<const M: usize>(call: &mut Reset<48>) {
    let mut filter = rust::<M>(&call.state);
    filter.reset();
    call.state.restart(filter.parts().1);
}
