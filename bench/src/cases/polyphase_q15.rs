//! FIR decimation and interpolation of Q15 blocks. Their blocks overlap by the filter's history, as a stream's must: they carry no state.

use super::{BLOCKS, STREAM};
use crate::blocks::{Cut, side};
use crate::case::{Case, Unit};
use crate::original;
use crate::ours::{accepted, ours};
use crate::samples::{fixed, taps, to_q15};
use gauge_line::{polyphase_decimate_q15, polyphase_interpolate_q15};

pub fn cases() -> Vec<Case> {
    vec![
        decimation(32, 2),
        decimation(64, 4),
        decimation(8, 1),
        decimation(3, 2),
        decimation(256, 8),
        interpolation(32, 4),
        interpolation(64, 2),
        interpolation(16, 16),
    ]
}

fn decimation(count: usize, factor: usize) -> Case {
    let cut = move |block| Cut {
        calls: STREAM / block,
        advance: block,
        reach: block + count - factor,
        places: block / factor,
    };
    Case {
        name: format!("polyphase_decimate_q15 T={count} D={factor}"),
        unit: Unit::Input,
        blocks: BLOCKS,
        ours: Box::new(move |block| {
            let converter = ours(Ok(taps(count)), move |taps, src, dst| {
                accepted(polyphase_decimate_q15(src, taps, factor, dst).map(|made| made.written))
            });
            side(converter, cut(block), fixed)
        }),
        rust: Box::new(move |block| {
            let converter = original::PolyphaseDecimate::new(to_q15(taps(count)), factor);
            side(converter, cut(block), |n| to_q15(fixed(n)))
        }),
    }
}

fn interpolation(count: usize, factor: usize) -> Case {
    let cut = move |block| Cut {
        calls: STREAM / block,
        advance: block / factor,
        reach: block / factor + count / factor - 1,
        places: block,
    };
    Case {
        name: format!("polyphase_interpolate_q15 T={count} L={factor}"),
        unit: Unit::Output,
        blocks: BLOCKS,
        ours: Box::new(move |block| {
            let converter = ours(Ok(taps(count)), move |taps, src, dst| {
                accepted(polyphase_interpolate_q15(src, taps, factor, dst).map(|made| made.written))
            });
            side(converter, cut(block), fixed)
        }),
        rust: Box::new(move |block| {
            let converter = original::PolyphaseInterpolate::new(to_q15(taps(count)), factor);
            side(converter, cut(block), |n| to_q15(fixed(n)))
        }),
    }
}
