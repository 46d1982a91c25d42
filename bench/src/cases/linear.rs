//! Linear resampling of blocks. No output's position is past the end of its block.

use super::{BLOCKS, STREAM};
use crate::blocks::{Cut, side};
use crate::case::{Case, Unit};
use crate::original;
use crate::ours::{accepted, ours};
use crate::samples::{fixed, levels, to_q15};
use gauge_line::{resample_linear_f32, resample_linear_q15};

pub fn cases() -> Vec<Case> {
    vec![
        linear_q15(65_536 / 2),
        linear_q15(3 * 65_536 / 2),
        linear_f32(0.5),
        linear_f32(1.7),
    ]
}

fn cut(block: usize, ratio: f64) -> Cut {
    Cut::apart(STREAM / block, block, (block as f64 / ratio) as usize)
}

fn linear_q15(ratio_q16: i32) -> Case {
    let ratio = f64::from(ratio_q16) / 65_536.0;
    Case {
        name: format!("resample_linear_q15 ratio {ratio}"),
        unit: Unit::Output,
        blocks: BLOCKS,
        ours: Box::new(move |block| {
            let converter = ours(Ok(()), move |_, src: &[i16], dst: &mut [i16]| {
                accepted(resample_linear_q15(src, dst, ratio_q16))
            });
            side(converter, cut(block, ratio), fixed)
        }),
        rust: Box::new(move |block| {
            let converter = original::LinearQ15(ratio_q16);
            side(converter, cut(block, ratio), |n| to_q15(fixed(n)))
        }),
    }
}

fn linear_f32(ratio: f32) -> Case {
    let cut = move |block| cut(block, f64::from(ratio));
    Case {
        name: format!("resample_linear_f32 ratio {ratio}"),
        unit: Unit::Output,
        blocks: BLOCKS,
        ours: Box::new(move |block| {
            let converter = ours(Ok(()), move |_, src: &[f32], dst: &mut [f32]| {
                accepted(resample_linear_f32(src, dst, ratio))
            });
            side(converter, cut(block), levels)
        }),
        rust: Box::new(move |block| side(original::LinearF32(ratio), cut(block), levels)),
    }
}
