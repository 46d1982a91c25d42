//! The linear-phase filters of the archive.

use super::{with_buffers, with_fields};
use crate::linear_phase::{Block, Inplace, Length, New, Reset, Step};
use gauge_raw::*;

macro_rules! with_filter {
    ($function:expr, $before:tt, $state:expr, $after:tt) => {
        with_fields!(
            $function,
            $before,
            $state,
            [m, odd, antisymmetric, taps, delay],
            $after
        )
    };
}

pub fn new(call: &mut New) -> u64 {
    let (lent, state) = (&call.lent, &mut call.answer);
    with_filter!(
        gauge_raw_linear_phase_fir_new,
        [
            lent.odd,
            lent.antisymmetric,
            lent.taps.elements.as_ptr(),
            lent.taps.len() as u64
        ],
        state,
        []
    )
}

pub fn process(call: &mut Step) -> u64 {
    let (sample, value) = (call.lent.sample, &mut call.answer.value);
    with_filter!(
        gauge_raw_linear_phase_fir_process,
        [],
        call.state,
        [sample, value]
    )
}

pub fn block(call: &mut Block) -> u64 {
    with_buffers!(
        with_filter,
        gauge_raw_linear_phase_fir_block,
        call,
        [written]
    )
}

pub fn inplace(call: &mut Inplace) -> u64 {
    let span = &mut call.lent.samples.elements;
    with_filter!(
        gauge_raw_linear_phase_fir_inplace,
        [],
        call.state,
        [
            span.as_mut_ptr(),
            span.len() as u64,
            &mut call.answer.written
        ]
    )
}

pub fn response_length(call: &mut Length) -> u64 {
    let state = &call.state;
    unsafe {
        gauge_raw_linear_phase_fir_response_length(
            state.m,
            state.odd,
            state.antisymmetric,
            &state.taps,
            &state.delay,
            &mut call.answer.value,
        )
    }
}

pub fn reset(call: &mut Reset) -> u64 {
    with_filter!(gauge_raw_linear_phase_fir_reset, [], call.state, [])
}
