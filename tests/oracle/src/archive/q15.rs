//! The Q15 layer of the archive.

use super::{with_fields, word};
use crate::{fir_decimator, linear, polyphase_q15, values};
use gauge_raw::*;

macro_rules! with_fir {
    ($function:expr, $before:tt, $state:expr, $after:tt) => {
        with_fields!(
            $function,
            $before,
            $state,
            [taps, tap_count, factor, delay, wait],
            $after
        )
    };
}

pub fn fir_decimator_new(call: &mut fir_decimator::New) -> u64 {
    let (lent, state) = (&call.lent, &mut call.answer);
    let taps = &lent.taps.elements;
    with_fir!(
        gauge_raw_fir_decimator_new_2,
        [taps.as_ptr(), taps.len() as u64, lent.factor],
        state,
        []
    )
}

pub fn fir_decimator_reset(call: &mut fir_decimator::Reset) -> u64 {
    with_fir!(gauge_raw_fir_decimator_reset, [], call.state, [])
}

pub fn fir_decimator_process_sample(call: &mut fir_decimator::Step) -> u64 {
    let (mut made, mut cut) = (u64::MAX, u64::MAX);
    let refusal = with_fir!(
        gauge_raw_fir_decimator_process_sample,
        [],
        call.state,
        [
            call.lent.sample,
            &mut made,
            &mut call.answer.output,
            &mut cut
        ]
    );
    call.answer.made = word(made);
    call.answer.cut = word(cut);
    refusal
}

type Block = unsafe extern "C" fn(
    *const i16,
    u64,
    *const i16,
    u64,
    u64,
    *mut i16,
    u64,
    &mut u64,
    &mut u64,
) -> u64;

fn block(function: Block, call: &mut polyphase_q15::Block) -> u64 {
    let polyphase_q15::Buffers {
        factor,
        samples,
        taps,
        span,
    } = &mut call.lent;
    unsafe {
        function(
            samples.elements.as_ptr(),
            samples.len() as u64,
            taps.elements.as_ptr(),
            taps.len() as u64,
            *factor,
            span.elements.as_mut_ptr(),
            span.len() as u64,
            &mut call.answer.written,
            &mut call.answer.cuts,
        )
    }
}

pub fn polyphase_decimate_q15(call: &mut polyphase_q15::Block) -> u64 {
    block(gauge_raw_polyphase_decimate_q15, call)
}

pub fn polyphase_interpolate_q15(call: &mut polyphase_q15::Block) -> u64 {
    block(gauge_raw_polyphase_interpolate_q15, call)
}

pub fn resample_linear_q15(call: &mut linear::Block<i16, i32>) -> u64 {
    super::linear(gauge_raw_resample_linear_q15, call)
}

pub fn cut_q15(call: &mut values::Cut) -> u64 {
    let mut cut = u64::MAX;
    unsafe { gauge_raw_cut_q15(call.lent.sample, &mut call.answer.value, &mut cut) }
    call.answer.cut = word(cut);
    0
}
