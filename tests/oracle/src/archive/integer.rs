//! The CIC converters of the archive.

use super::{with_buffers, with_fields, word};
use crate::element::Element;
use crate::{cic_decimator, cic_interpolator, exact_sums, nonrecursive_decimator};
use gauge_raw::*;

macro_rules! with_decimator {
    ($function:expr, $before:tt, $state:expr, $after:tt) => {
        with_fields!(
            $function,
            $before,
            $state,
            [stages, r, integrators, combs, sample_counter],
            $after
        )
    };
}

macro_rules! with_interpolator {
    ($function:expr, $before:tt, $state:expr, $after:tt) => {
        with_fields!(
            $function,
            $before,
            $state,
            [stages, r, combs, integrators],
            $after
        )
    };
}

pub fn cic_decimator_new(call: &mut cic_decimator::New) -> u64 {
    let (lent, state) = (&call.lent, &mut call.answer);
    with_decimator!(
        gauge_raw_cic_decimator_new,
        [lent.stages, lent.r],
        state,
        []
    )
}

type DecimatorStep = unsafe extern "C" fn(
    &mut u64,
    &mut u64,
    &mut [i32; 8],
    &mut [i32; 8],
    &mut u64,
    i32,
    &mut u64,
    &mut i32,
) -> u64;

fn decimator_step(function: DecimatorStep, call: &mut cic_decimator::Step) -> u64 {
    let (sample, answer) = (call.lent.sample, &mut call.answer);
    let mut made = u64::MAX;
    let after = &mut answer.output;
    let refusal = with_decimator!(function, [], call.state, [sample, &mut made, after]);
    answer.made = word(made);
    refusal
}

pub fn cic_decimator_process_sample(call: &mut cic_decimator::Step) -> u64 {
    decimator_step(gauge_raw_cic_decimator_process_sample, call)
}

pub fn cic_decimator_process_sample_scaled(call: &mut cic_decimator::Step) -> u64 {
    decimator_step(gauge_raw_cic_decimator_process_sample_scaled, call)
}

pub fn cic_decimator_process_block(call: &mut cic_decimator::Block) -> u64 {
    with_buffers!(
        with_decimator,
        gauge_raw_cic_decimator_process_block,
        call,
        [taken, written]
    )
}

type DecimatorReading<T> = unsafe extern "C" fn(u64, u64, &[i32; 8], &[i32; 8], u64, &mut T) -> u64;

fn decimator_reading<T: Element>(
    function: DecimatorReading<T>,
    call: &mut cic_decimator::Reading<T>,
) -> u64 {
    let state = &call.lent;
    unsafe {
        function(
            state.stages,
            state.r,
            &state.integrators,
            &state.combs,
            state.sample_counter,
            &mut call.answer.value,
        )
    }
}

pub fn cic_decimator_gain(call: &mut cic_decimator::Reading<u64>) -> u64 {
    decimator_reading(gauge_raw_cic_decimator_gain, call)
}

pub fn cic_decimator_gain_bits(call: &mut cic_decimator::Reading<u32>) -> u64 {
    decimator_reading(gauge_raw_cic_decimator_gain_bits, call)
}

pub fn cic_decimator_exact_range(call: &mut exact_sums::Range) -> u64 {
    let (state, ends) = (&call.lent, &mut call.answer);
    unsafe {
        gauge_raw_cic_decimator_exact_range(
            state.stages,
            state.r,
            &state.integrators,
            &state.combs,
            state.sample_counter,
            &mut ends.least,
            &mut ends.greatest,
        )
    }
}

macro_rules! with_nonrecursive {
    ($function:expr, $before:tt, $state:expr, $after:tt) => {
        with_fields!(
            $function,
            $before,
            $state,
            [stages, r, neighbours, place],
            $after
        )
    };
}

pub fn nonrecursive_decimator_new(call: &mut nonrecursive_decimator::New) -> u64 {
    let (lent, state) = (&call.lent, &mut call.answer);
    with_nonrecursive!(
        gauge_raw_nonrecursive_decimator_new,
        [lent.stages, lent.r],
        state,
        []
    )
}

type NonrecursiveStep = unsafe extern "C" fn(
    &mut u64,
    &mut u64,
    &mut [i32; 96],
    &mut u64,
    i32,
    &mut u64,
    &mut i32,
) -> u64;

fn nonrecursive_step(function: NonrecursiveStep, call: &mut nonrecursive_decimator::Step) -> u64 {
    let (sample, answer) = (call.lent.sample, &mut call.answer);
    let mut made = u64::MAX;
    let after = &mut answer.output;
    let refusal = with_nonrecursive!(function, [], call.state, [sample, &mut made, after]);
    answer.made = word(made);
    refusal
}

pub fn nonrecursive_decimator_process_sample(call: &mut nonrecursive_decimator::Step) -> u64 {
    nonrecursive_step(gauge_raw_nonrecursive_decimator_process_sample, call)
}

pub fn nonrecursive_decimator_process_sample_scaled(
    call: &mut nonrecursive_decimator::Step,
) -> u64 {
    nonrecursive_step(gauge_raw_nonrecursive_decimator_process_sample_scaled, call)
}

pub fn nonrecursive_decimator_process_block(call: &mut nonrecursive_decimator::Block) -> u64 {
    with_buffers!(
        with_nonrecursive,
        gauge_raw_nonrecursive_decimator_process_block,
        call,
        [taken, written]
    )
}

type NonrecursiveReading<T> = unsafe extern "C" fn(u64, u64, &[i32; 96], u64, &mut T) -> u64;

fn nonrecursive_reading<T: Element>(
    function: NonrecursiveReading<T>,
    call: &mut nonrecursive_decimator::Reading<T>,
) -> u64 {
    let (state, value) = (&call.lent, &mut call.answer.value);
    unsafe { function(state.stages, state.r, &state.neighbours, state.place, value) }
}

pub fn nonrecursive_decimator_gain(call: &mut nonrecursive_decimator::Reading<u64>) -> u64 {
    nonrecursive_reading(gauge_raw_nonrecursive_decimator_gain, call)
}

pub fn nonrecursive_decimator_gain_bits(call: &mut nonrecursive_decimator::Reading<u32>) -> u64 {
    nonrecursive_reading(gauge_raw_nonrecursive_decimator_gain_bits, call)
}

pub fn cic_interpolator_new(call: &mut cic_interpolator::New) -> u64 {
    let (lent, state) = (&call.lent, &mut call.answer);
    with_interpolator!(
        gauge_raw_cic_interpolator_new,
        [lent.stages, lent.r],
        state,
        []
    )
}

pub fn cic_interpolator_process_sample(call: &mut cic_interpolator::Step) -> u64 {
    let span = &mut call.lent.span.elements;
    with_interpolator!(
        gauge_raw_cic_interpolator_process_sample,
        [],
        call.state,
        [
            call.lent.sample,
            span.as_mut_ptr(),
            span.len() as u64,
            &mut call.answer.written
        ]
    )
}

pub fn cic_interpolator_process_block(call: &mut cic_interpolator::Block) -> u64 {
    with_buffers!(
        with_interpolator,
        gauge_raw_cic_interpolator_process_block,
        call,
        [taken, written]
    )
}

type InterpolatorReading<T> = unsafe extern "C" fn(u64, u64, &[i32; 8], &[i32; 8], &mut T) -> u64;

fn interpolator_reading<T: Element>(
    function: InterpolatorReading<T>,
    call: &mut cic_interpolator::Reading<T>,
) -> u64 {
    let (state, value) = (&call.lent, &mut call.answer.value);
    unsafe {
        function(
            state.stages,
            state.r,
            &state.combs,
            &state.integrators,
            value,
        )
    }
}

pub fn cic_interpolator_gain(call: &mut cic_interpolator::Reading<u64>) -> u64 {
    interpolator_reading(gauge_raw_cic_interpolator_gain, call)
}

pub fn cic_interpolator_gain_bits(call: &mut cic_interpolator::Reading<u32>) -> u64 {
    interpolator_reading(gauge_raw_cic_interpolator_gain_bits, call)
}
