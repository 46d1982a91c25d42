//! `HbfIntCascade` of the Rust, for the cascades' cases.

use crate::archive::float;
use crate::cascade::{Block, Cascade, New, Reset, State};
use crate::case::Operation;
use crate::refusals;
use crate::sizes::{front, with_depth};
use embedded_dsp::resampling::HbfIntCascade;

pub struct Interpolators;

impl Cascade<240> for Interpolators {
    const TAKES: usize = 1;
    const GIVES: usize = 2;

    const NEW: Operation<New<240>> = Operation {
        code: 0x91,
        name: "HbfIntCascade::new",
        refusal: Some(|call| refusals::cascade_opening(call.lent.depth)),
        rust: |call| with_depth!(call.lent.depth, new(call)),
        archive: float::hbf_int_cascade_new,
    };

    const PROCESS: Operation<Block<240>> = Operation {
        code: 0x92,
        name: "HbfIntCascade::process",
        refusal: Some(Block::refusal),
        rust: |call| with_depth!(call.state.depth, process(call)),
        archive: float::hbf_int_cascade_process,
    };

    const RESET: Operation<Reset<240>> = Operation {
        code: 0x93,
        name: "HbfIntCascade::reset",
        refusal: Some(|call| call.state.refusal()),
        rust: |call| with_depth!(call.state.depth, reset(call)),
        archive: float::hbf_int_cascade_reset,
    };
}

fn delays<const D: usize>(cascade: &HbfIntCascade<D>) -> [f32; 240] {
    front(cascade.parts().as_flattened())
}

fn rust<const D: usize>(state: &State<240>) -> HbfIntCascade<D> {
    HbfIntCascade::from_parts(state.delays.as_chunks().0.try_into().unwrap())
}

fn new<const D: usize>(call: &mut New<240>) {
    call.answer = State {
        depth: D as u64,
        delays: delays(&HbfIntCascade::<D>::new()),
    };
}

fn process<const D: usize>(call: &mut Block<240>) {
    let mut cascade = rust::<D>(&call.state);
    cascade.process(&call.lent.samples.elements, &mut call.lent.span.elements);
    call.state.delays = delays(&cascade);
    let (takes, gives) = Interpolators::frame(call.state.depth);
    call.answer.written = call.lent.whole(takes, gives);
}

/// A fresh opening of the same depth; the Rust clears every stage.
fn reset<const D: usize>(call: &mut Reset<240>) {
    let mut cascade = rust::<D>(&call.state);
    cascade.reset();
    call.state.delays = delays(&cascade);
}
