//! Polyphase resamplers. Blocks are of input samples, and spans are longer than what a block makes.

use super::{BLOCKS, STREAM};
use crate::blocks::{Cut, side};
use crate::case::{Case, Settings, Unit};
use crate::original;
use crate::ours::{ours, took_all};
use crate::race::Side;
use crate::samples::{levels, prototype};
use gauge_line::{PolyphaseResampF32, Refusal};

pub fn cases() -> Vec<Case> {
    vec![
        resampler::<32, 8>(0.9),
        resampler::<64, 16>(0.5),
        resampler::<8, 4>(1.7),
    ]
}

/// Straight phase, and wrapped phase behind it.
pub fn phases() -> Vec<Settings> {
    vec![
        by_phase(32, 8, 0.9),
        by_phase(64, 16, 0.5),
        by_phase(8, 4, 1.7),
    ]
}

fn cut(block: usize, step: f32) -> Cut {
    let places = (block as f32 / step) as usize + 2;
    Cut::apart(STREAM / block, block, places)
}

fn ours_of(opened: Result<PolyphaseResampF32, Refusal>, cut: Cut) -> Box<dyn Side> {
    let converter = ours(opened, |resampler: &mut PolyphaseResampF32, src, dst| {
        took_all(src, resampler.process_block(src, dst))
    });
    side(converter, cut, levels)
}

fn resampler<const P: usize, const T: usize>(step: f32) -> Case {
    Case {
        name: format!("PolyphaseResampF32 {P}x{T} step {step}"),
        unit: Unit::Output,
        blocks: BLOCKS,
        ours: Box::new(move |block| {
            let opened = PolyphaseResampF32::from_taps(P, T, &prototype(P * T), step);
            ours_of(opened, cut(block, step))
        }),
        rust: Box::new(move |block| {
            let converter = original::resampler::<P, T>(&prototype(P * T), step);
            side(converter, cut(block, step), levels)
        }),
    }
}

fn by_phase(p: usize, t: usize, step: f32) -> Settings {
    Settings {
        name: format!("PolyphaseResampF32 {p}x{t} step {step}"),
        unit: Unit::Output,
        blocks: BLOCKS,
        first: Box::new(move |block| {
            let opened = PolyphaseResampF32::from_taps_straight(p, t, &prototype(p * t), step);
            ours_of(opened, cut(block, step))
        }),
        second: Box::new(move |block| {
            let opened = PolyphaseResampF32::from_taps(p, t, &prototype(p * t), step);
            ours_of(opened, cut(block, step))
        }),
    }
}
