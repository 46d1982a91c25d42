//! Linear-phase filters, which keep the rate.

use super::{BLOCK, SHORT_BLOCK, STREAM};
use crate::blocks::{Cut, side};
use crate::case::{Case, Unit};
use crate::original::{Filter, PHASE_STATE};
use crate::ours::{accepted, ours};
use crate::samples::levels;
use embedded_dsp::pipeline::SplitProcess;
use embedded_dsp::resampling::{
    EvenAntiSymmetric, EvenSymmetric, HBF_TAPS, OddAntiSymmetric, OddSymmetric,
};

const BLOCKS: &[usize] = &[BLOCK, SHORT_BLOCK, 1];
/// What a call costs shows in short blocks.
pub const LENGTHS: &[usize] = &[1, 2, 3, 4, 5, 8, 9, 12, 15, 16, 17, 24, 31, 32, 64];

pub fn cases() -> Vec<Case> {
    vec![
        even(HBF_TAPS.4.0),
        even(HBF_TAPS.1.0),
        even(HBF_TAPS.0.0),
        odd(HBF_TAPS.4.0),
        odd(HBF_TAPS.1.0),
        odd(HBF_TAPS.0.0),
    ]
}

/// The four kinds with few and with many taps, for a table by the length of a block.
pub fn lengths() -> Vec<Case> {
    [
        kinds::<1>(),
        kinds::<2>(),
        kinds::<3>(),
        kinds::<4>(),
        kinds::<5>(),
        kinds::<8>(),
        kinds::<10>(),
        kinds::<16>(),
        kinds::<23>(),
    ]
    .into_iter()
    .flatten()
    .collect()
}

fn kinds<const M: usize>() -> [Case; 4] {
    let taps: [f32; M] = std::array::from_fn(|t| 1.0 / (t + 3) as f32);
    [
        case("even symmetric", LENGTHS, taps, EvenSymmetric(taps)),
        case("odd symmetric", LENGTHS, taps, OddSymmetric(taps)),
        case("even antisymmetric", LENGTHS, taps, EvenAntiSymmetric(taps)),
        case("odd antisymmetric", LENGTHS, taps, OddAntiSymmetric(taps)),
    ]
}

fn even<const M: usize>(taps: [f32; M]) -> Case {
    case("even", BLOCKS, taps, EvenSymmetric(taps))
}

fn odd<const M: usize>(taps: [f32; M]) -> Case {
    case("odd", BLOCKS, taps, OddSymmetric(taps))
}

fn case<F, const M: usize>(kind: &str, blocks: &'static [usize], taps: [f32; M], filter: F) -> Case
where
    F: SplitProcess<f32, f32, [f32; PHASE_STATE]> + Copy + 'static,
{
    let odd = kind.starts_with("odd");
    let antisymmetric = kind.ends_with("antisymmetric");
    let cut = |block| Cut::apart(STREAM / block, block, block);
    Case {
        name: format!("LinearPhaseFir {kind} M={M}"),
        unit: Unit::Input,
        blocks,
        ours: Box::new(move |block| {
            let opened = gauge_line::LinearPhaseFir::new(odd, antisymmetric, &taps);
            let converter = ours(opened, |fir, src, dst| accepted(fir.block(src, dst)));
            side(converter, cut(block), levels)
        }),
        rust: Box::new(move |block| side(Filter::new(filter), cut(block), levels)),
    }
}
