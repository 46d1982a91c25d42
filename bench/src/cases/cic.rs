//! CIC decimators and interpolators.

use super::{BLOCKS, STREAM};
use crate::blocks::{Cut, side};
use crate::case::{Case, Unit};
use crate::original;
use crate::ours::{ours, took_all};
use crate::samples::cells;
use gauge_line::{CicDecimator, CicInterpolator, NonrecursiveDecimator};

pub fn cases() -> Vec<Case> {
    vec![
        decimator::<1>(4),
        decimator::<3>(16),
        decimator::<8>(8),
        decimator::<3>(1),
        neighbours::<3>(16),
        interpolator::<1>(4),
        interpolator::<3>(16),
        interpolator::<8>(8),
    ]
}

fn decimator<const N: usize>(r: usize) -> Case {
    let cut = move |block| Cut::apart(STREAM / block, block, block / r);
    Case {
        name: format!("CicDecimator N={N} r={r}"),
        unit: Unit::Input,
        blocks: BLOCKS,
        ours: Box::new(move |block| {
            let converter = ours(CicDecimator::new(N, r), |cic, src, dst| {
                took_all(src, cic.process_block(src, dst))
            });
            side(converter, cut(block), cells)
        }),
        rust: Box::new(move |block| {
            side(original::CicDecimatorLoop::<N>::new(r), cut(block), cells)
        }),
    }
}

// The same sums: the other side is the Rust's CIC decimator.
fn neighbours<const N: usize>(r: usize) -> Case {
    let cut = move |block| Cut::apart(STREAM / block, block, block / r);
    Case {
        name: format!("NonrecursiveDecimator N={N} r={r}"),
        unit: Unit::Input,
        blocks: BLOCKS,
        ours: Box::new(move |block| {
            let converter = ours(NonrecursiveDecimator::new(N, r), |cic, src, dst| {
                took_all(src, cic.process_block(src, dst))
            });
            side(converter, cut(block), cells)
        }),
        rust: Box::new(move |block| {
            side(original::CicDecimatorLoop::<N>::new(r), cut(block), cells)
        }),
    }
}

fn interpolator<const N: usize>(r: usize) -> Case {
    let cut = move |block| Cut::apart(STREAM / block, block / r, block);
    Case {
        name: format!("CicInterpolator N={N} r={r}"),
        unit: Unit::Output,
        blocks: BLOCKS,
        ours: Box::new(move |block| {
            let converter = ours(CicInterpolator::new(N, r), |cic, src, dst| {
                took_all(src, cic.process_block(src, dst))
            });
            side(converter, cut(block), cells)
        }),
        rust: Box::new(move |block| {
            side(
                original::CicInterpolatorLoop::<N>::new(r),
                cut(block),
                cells,
            )
        }),
    }
}
