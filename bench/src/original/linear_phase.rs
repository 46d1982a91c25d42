//! The Rust's linear-phase filters, each with the state that its caller keeps.

use crate::blocks::Converter;
use embedded_dsp::pipeline::SplitProcess;

/// Places of the state: the samples that a filter keeps, at most 46, and behind them room for a chunk.
pub const PHASE_STATE: usize = 192;

pub struct Filter<F> {
    filter: F,
    state: [f32; PHASE_STATE],
}

impl<F> Filter<F> {
    pub fn new(filter: F) -> Self {
        Filter {
            filter,
            state: [0.0; PHASE_STATE],
        }
    }
}

impl<F: SplitProcess<f32, f32, [f32; PHASE_STATE]>> Converter for Filter<F> {
    type Sample = f32;
    type Output = f32;

    fn restart(&mut self) {
        self.state = [0.0; PHASE_STATE];
    }

    fn convert(&mut self, src: &[f32], dst: &mut [f32]) -> usize {
        self.filter.block_with_state(&mut self.state, src, dst);
        src.len()
    }
}
