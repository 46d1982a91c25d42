//! `HbfDecCascade` of the Rust, for the cascades' cases.

use crate::archive::float;
use crate::cascade::{Block, Cascade, New, Reset, State};
use crate::case::Operation;
use crate::refusals;
use crate::sizes::{front, with_depth};
use embedded_dsp::resampling::HbfDecCascade;

pub struct Decimators;

impl Cascade<480> for Decimators {
    const TAKES: usize = 2;
    const GIVES: usize = 1;

    const NEW: Operation<New<480>> = Operation {
        code: 0x81,
        name: "HbfDecCascade::new",
        refusal: Some(|call| refusals::cascade_opening(call.lent.depth)),
        rust: |call| with_depth!(call.lent.depth, new(call)),
        archive: float::hbf_dec_cascade_new,
    };

    const PROCESS: Operation<Block<480>> = Operation {
        code: 0x82,
        name: "HbfDecCascade::process",
        refusal: Some(Block::refusal),
        rust: |call| with_depth!(call.state.depth, process(call)),
        archive: float::hbf_dec_cascade_process,
    };

    const RESET: Operation<Reset<480>> = Operation {
        code: 0x83,
        name: "HbfDecCascade::reset",
        refusal: Some(|call| call.state.refusal()),
        rust: |call| with_depth!(call.state.depth, reset(call)),
        archive: float::hbf_dec_cascade_reset,
    };
}

fn delays<const D: usize>(cascade: &HbfDecCascade<D>) -> [f32; 480] {
    front(cascade.parts().as_flattened())
}

fn rust<const D: usize>(state: &State<480>) -> HbfDecCascade<D> {
    HbfDecCascade::from_parts(state.delays.as_chunks().0.try_into().unwrap())
}

fn new<const D: usize>(call: &mut New<480>) {
    call.answer = State {
        depth: D as u64,
        delays: delays(&HbfDecCascade::<D>::new()),
    };
}

fn process<const D: usize>(call: &mut Block<480>) {
    let mut cascade = rust::<D>(&call.state);
    cascade.process(&call.lent.samples.elements, &mut call.lent.span.elements);
    call.state.delays = delays(&cascade);
    let (takes, gives) = Decimators::frame(call.state.depth);
    call.answer.written = call.lent.whole(takes, gives);
}

/// A fresh opening of the same depth; the Rust clears every stage.
fn reset<const D: usize>(call: &mut Reset<480>) {
    let mut cascade = rust::<D>(&call.state);
    cascade.reset();
    call.state.delays = delays(&cascade);
}
