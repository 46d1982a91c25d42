//! The gauge line of the archive.

use super::{with_buffers, with_fields};
use crate::feeding_plan::Plan;
use crate::line_calls::{Feed, Open, Reset, Step};
use crate::parked_cases::{Park, ParkedLen, TakeUp};
use gauge_raw::*;

macro_rules! with_line {
    ($function:expr, $before:tt, $line:expr, $after:tt) => {
        with_fields!(
            $function,
            $before,
            $line,
            [
                cic.stages,
                cic.r,
                cic.integrators,
                cic.combs,
                cic.sample_counter,
                fir.taps,
                fir.tap_count,
                fir.factor,
                fir.delay,
                fir.wait,
                half_band.depth,
                half_band.delays,
                half_band.held,
                half_band.counts,
                resampler.phases,
                resampler.taps,
                resampler.straight,
                resampler.mu,
                resampler.step,
                resampler.delay,
                resampler.prototype,
                cuts,
                thinning,
                neighbours
            ],
            $after
        )
    };
}

pub fn open(call: &mut Open) -> u64 {
    let (settings, line) = (&call.lent, &mut call.answer.0);
    with_line!(
        gauge_raw_line_open_3,
        [
            settings.stages,
            settings.r,
            settings.factor,
            settings.depth,
            settings.phases,
            settings.taps,
            settings.straight,
            settings.step,
            settings.thinning,
            settings.fir.elements.as_ptr(),
            settings.fir.len() as u64,
            settings.prototype.elements.as_ptr(),
            settings.prototype.len() as u64
        ],
        line,
        []
    )
}

pub fn feed(call: &mut Feed) -> u64 {
    with_buffers!(with_line, gauge_raw_line_feed, call, [taken, written])
}

pub fn step(call: &mut Step) -> u64 {
    let samples = &call.lent.samples.elements;
    with_line!(
        gauge_raw_line_step,
        [],
        call.state,
        [
            samples.as_ptr(),
            samples.len() as u64,
            call.lent.at,
            call.lent.places,
            &mut call.answer.taken,
            &mut call.answer.written,
            &mut call.answer.value
        ]
    )
}

pub fn reset(call: &mut Reset) -> u64 {
    with_line!(gauge_raw_line_reset, [], call.state, [])
}

/// A line that is only read: its numbers by value, its arrays lent.
macro_rules! reading_line {
    ($function:expr, $line:expr, [$($after:expr),*]) => {{
        let crate::gauge_line::Line { cic, fir, half_band, resampler, cuts, thinning, neighbours } = &$line;
        unsafe {
            $function(
                cic.stages,
                cic.r,
                &cic.integrators,
                &cic.combs,
                cic.sample_counter,
                &fir.taps,
                fir.tap_count,
                fir.factor,
                &fir.delay,
                fir.wait,
                half_band.depth,
                &half_band.delays,
                &half_band.held,
                &half_band.counts,
                resampler.phases,
                resampler.taps,
                resampler.straight,
                resampler.mu,
                resampler.step,
                &resampler.delay,
                &resampler.prototype,
                *cuts,
                *thinning,
                neighbours,
                $($after),*
            )
        }
    }};
}

pub fn park(call: &mut Park) -> u64 {
    let span = &mut call.lent.span.elements;
    reading_line!(
        gauge_raw_line_park,
        call.state,
        [
            span.as_mut_ptr(),
            span.len() as u64,
            &mut call.answer.written
        ]
    )
}

pub fn parked_len(call: &mut ParkedLen) -> u64 {
    reading_line!(
        gauge_raw_line_parked_len,
        call.state,
        [&mut call.answer.bytes]
    )
}

pub fn take_up(call: &mut TakeUp) -> u64 {
    let (sheet, line) = (&call.lent.sheet.elements, &mut call.answer.0);
    with_line!(
        gauge_raw_line_take_up_3,
        [sheet.as_ptr(), sheet.len() as u64],
        line,
        []
    )
}

pub fn plan(call: &mut Plan) -> u64 {
    let settings = &call.settings;
    let (pieces, spans) = (&call.pieces.elements, &call.spans.elements);
    let (taken, written) = (&mut call.taken.elements, &mut call.written.elements);
    // SAFETY: each pointer is lent with the length of its own list.
    unsafe {
        gauge_raw_plan_3(
            settings.stages,
            settings.r,
            settings.factor,
            settings.depth,
            settings.phases,
            settings.taps,
            settings.straight,
            settings.step,
            settings.thinning,
            settings.fir.elements.as_ptr(),
            settings.fir.len() as u64,
            settings.prototype.elements.as_ptr(),
            settings.prototype.len() as u64,
            pieces.as_ptr(),
            pieces.len() as u64,
            spans.as_ptr(),
            spans.len() as u64,
            taken.as_mut_ptr(),
            taken.len() as u64,
            written.as_mut_ptr(),
            written.len() as u64,
        )
    }
}
