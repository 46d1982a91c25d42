//! The float layer of the archive.

use super::{with_buffers, with_fields, word};
use crate::{cascade, half_band, hbf_dec, hbf_dec_cascade_98, hbf_int, hbf_stream};
use crate::{linear, phase_rows, polyphase_resamp, values};
use gauge_raw::*;

pub fn q15_to_f32(call: &mut values::ToF32) -> u64 {
    unsafe { gauge_raw_q15_to_f32(call.lent.sample, &mut call.answer.value) }
    0
}

pub fn hbf_dec_response_length(call: &mut values::Length) -> u64 {
    unsafe { gauge_raw_hbf_dec_response_length(call.lent.depth, &mut call.answer.value) }
}

pub fn hbf_int_response_length(call: &mut values::Length) -> u64 {
    unsafe { gauge_raw_hbf_int_response_length(call.lent.depth, &mut call.answer.value) }
}

pub fn hbf_tap_table(call: &mut values::TapTable) -> u64 {
    unsafe { gauge_raw_hbf_tap_table(&mut call.answer.taps) }
    0
}

pub fn hbf_dec_reach(call: &mut hbf_dec_cascade_98::Reach) -> u64 {
    unsafe { gauge_raw_hbf_dec_reach(call.lent.depth, &mut call.answer.value) }
}

pub fn hbf_dec_reach_98(call: &mut hbf_dec_cascade_98::Reach) -> u64 {
    unsafe { gauge_raw_hbf_dec_reach_98(call.lent.depth, &mut call.answer.value) }
}

pub fn hbf_tap_table_98(call: &mut hbf_dec_cascade_98::TapTable) -> u64 {
    unsafe { gauge_raw_hbf_tap_table_98(&mut call.answer.taps) }
    0
}

pub fn resample_linear_f32(call: &mut linear::Block<f32, f32>) -> u64 {
    super::linear(gauge_raw_resample_linear_f32, call)
}

macro_rules! rearranging {
    ($function:expr, $call:expr) => {{
        let (values, span) = (&$call.lent.values.elements, &mut $call.lent.span.elements);
        unsafe {
            $function(
                $call.lent.phases,
                $call.lent.taps,
                values.as_ptr(),
                values.len() as u64,
                span.as_mut_ptr(),
                span.len() as u64,
                &mut $call.answer.written,
            )
        }
    }};
}

pub fn prototype_by_phase(call: &mut phase_rows::Rearranging) -> u64 {
    rearranging!(gauge_raw_prototype_by_phase, call)
}

pub fn prototype_by_tap(call: &mut phase_rows::Rearranging) -> u64 {
    rearranging!(gauge_raw_prototype_by_tap, call)
}

macro_rules! with_half_band {
    ($function:expr, $before:tt, $state:expr, $after:tt) => {
        with_fields!($function, $before, $state, [m, coeffs, delay], $after)
    };
}

macro_rules! half_band_new {
    ($function:expr, $call:expr) => {{
        let (taps, state) = (&$call.lent.taps.elements, &mut $call.answer);
        with_half_band!($function, [taps.as_ptr(), taps.len() as u64], state, [])
    }};
}

pub fn hbf_dec_new(call: &mut half_band::New<96>) -> u64 {
    half_band_new!(gauge_raw_hbf_dec_new, call)
}

pub fn hbf_int_new(call: &mut half_band::New<48>) -> u64 {
    half_band_new!(gauge_raw_hbf_int_new, call)
}

pub fn hbf_dec_process(call: &mut half_band::Block<96>) -> u64 {
    with_buffers!(with_half_band, gauge_raw_hbf_dec_process, call, [written])
}

pub fn hbf_int_process(call: &mut half_band::Block<48>) -> u64 {
    with_buffers!(with_half_band, gauge_raw_hbf_int_process, call, [written])
}

pub fn hbf_dec_reset(call: &mut half_band::Reset<96>) -> u64 {
    with_half_band!(gauge_raw_hbf_dec_reset, [], call.state, [])
}

pub fn hbf_int_reset(call: &mut half_band::Reset<48>) -> u64 {
    with_half_band!(gauge_raw_hbf_int_reset, [], call.state, [])
}

pub fn hbf_dec_process_pair(call: &mut hbf_dec::Step) -> u64 {
    let (lent, value) = (&call.lent, &mut call.answer.value);
    with_half_band!(
        gauge_raw_hbf_dec_process_pair,
        [],
        call.state,
        [lent.a, lent.b, value]
    )
}

pub fn hbf_int_process_sample(call: &mut hbf_int::Step) -> u64 {
    let (sample, answer) = (call.lent.sample, &mut call.answer);
    with_half_band!(
        gauge_raw_hbf_int_process_sample,
        [],
        call.state,
        [sample, &mut answer.even, &mut answer.odd]
    )
}

macro_rules! with_cascade {
    ($function:expr, $before:tt, $state:expr, $after:tt) => {
        with_fields!($function, $before, $state, [depth, delays], $after)
    };
}

pub fn hbf_dec_cascade_new(call: &mut cascade::New<480>) -> u64 {
    let depth = call.lent.depth;
    with_cascade!(gauge_raw_hbf_dec_cascade_new, [depth], call.answer, [])
}

pub fn hbf_int_cascade_new(call: &mut cascade::New<240>) -> u64 {
    let depth = call.lent.depth;
    with_cascade!(gauge_raw_hbf_int_cascade_new, [depth], call.answer, [])
}

pub fn hbf_dec_cascade_process(call: &mut cascade::Block<480>) -> u64 {
    with_buffers!(
        with_cascade,
        gauge_raw_hbf_dec_cascade_process,
        call,
        [written]
    )
}

pub fn hbf_int_cascade_process(call: &mut cascade::Block<240>) -> u64 {
    with_buffers!(
        with_cascade,
        gauge_raw_hbf_int_cascade_process,
        call,
        [written]
    )
}

pub fn hbf_dec_cascade_reset(call: &mut cascade::Reset<480>) -> u64 {
    with_cascade!(gauge_raw_hbf_dec_cascade_reset, [], call.state, [])
}

pub fn hbf_dec_cascade_98_new(call: &mut cascade::New<480>) -> u64 {
    let depth = call.lent.depth;
    with_cascade!(gauge_raw_hbf_dec_cascade_98_new, [depth], call.answer, [])
}

pub fn hbf_dec_cascade_98_process(call: &mut cascade::Block<480>) -> u64 {
    with_buffers!(
        with_cascade,
        gauge_raw_hbf_dec_cascade_98_process,
        call,
        [written]
    )
}

pub fn hbf_dec_cascade_98_reset(call: &mut cascade::Reset<480>) -> u64 {
    with_cascade!(gauge_raw_hbf_dec_cascade_98_reset, [], call.state, [])
}

pub fn hbf_int_cascade_reset(call: &mut cascade::Reset<240>) -> u64 {
    with_cascade!(gauge_raw_hbf_int_cascade_reset, [], call.state, [])
}

macro_rules! with_stream {
    ($function:expr, $before:tt, $state:expr, $after:tt) => {
        with_fields!(
            $function,
            $before,
            $state,
            [depth, delays, held, counts],
            $after
        )
    };
}

pub fn hbf_stream_new(call: &mut hbf_stream::New) -> u64 {
    let depth = call.lent.depth;
    with_stream!(gauge_raw_hbf_stream_new, [depth], call.answer, [])
}

pub fn hbf_stream_process_sample(call: &mut hbf_stream::Step) -> u64 {
    let mut made = u64::MAX;
    let refusal = with_stream!(
        gauge_raw_hbf_stream_process_sample,
        [],
        call.state,
        [call.lent.sample, &mut made, &mut call.answer.output]
    );
    call.answer.made = word(made);
    refusal
}

pub fn hbf_stream_reset(call: &mut hbf_stream::Reset) -> u64 {
    with_stream!(gauge_raw_hbf_stream_reset, [], call.state, [])
}

macro_rules! with_resampler {
    ($function:expr, $before:tt, $state:expr, $after:tt) => {
        with_fields!(
            $function,
            $before,
            $state,
            [phases, taps, straight, mu, step, delay, prototype],
            $after
        )
    };
}

macro_rules! resampler_opening {
    ($function:expr, $call:expr) => {{
        let (lent, state) = (&$call.lent, &mut $call.answer);
        with_resampler!(
            $function,
            [
                lent.phases,
                lent.taps,
                lent.prototype.elements.as_ptr(),
                lent.prototype.len() as u64,
                lent.step
            ],
            state,
            []
        )
    }};
}

pub fn polyphase_resamp_from_taps(call: &mut polyphase_resamp::New) -> u64 {
    resampler_opening!(gauge_raw_polyphase_resamp_from_taps, call)
}

pub fn polyphase_resamp_from_taps_straight(call: &mut polyphase_resamp::New) -> u64 {
    resampler_opening!(gauge_raw_polyphase_resamp_from_taps_straight, call)
}

pub fn polyphase_resamp_process_block(call: &mut polyphase_resamp::Block) -> u64 {
    with_buffers!(
        with_resampler,
        gauge_raw_polyphase_resamp_process_block,
        call,
        [taken, written]
    )
}

pub fn polyphase_resamp_push(call: &mut polyphase_resamp::Step) -> u64 {
    let span = &mut call.lent.span.elements;
    with_resampler!(
        gauge_raw_polyphase_resamp_push,
        [],
        call.state,
        [
            call.lent.sample,
            span.as_mut_ptr(),
            span.len() as u64,
            &mut call.answer.written
        ]
    )
}

pub fn polyphase_resamp_reset(call: &mut polyphase_resamp::Reset) -> u64 {
    with_resampler!(gauge_raw_polyphase_resamp_reset, [], call.state, [])
}
