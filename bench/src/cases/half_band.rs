//! Half-band decimators and interpolators, single and in cascade.

use super::{BLOCKS, STREAM};
use crate::blocks::{Cut, side};
use crate::case::{Case, Unit};
use crate::original::Chain98;
use crate::ours::{accepted, ours};
use crate::samples::levels;
use embedded_dsp::resampling::{HBF_TAPS, HbfDec, HbfDecCascade, HbfInt, HbfIntCascade};

pub fn cases() -> Vec<Case> {
    vec![
        decimator(HBF_TAPS.4.0),
        decimator(HBF_TAPS.1.0),
        decimator(HBF_TAPS.0.0),
        interpolator(HBF_TAPS.4.0),
        interpolator(HBF_TAPS.1.0),
        interpolator(HBF_TAPS.0.0),
        decimator_cascade::<1>(),
        decimator_cascade::<3>(),
        decimator_cascade::<5>(),
        decimator_cascade_98(1),
        decimator_cascade_98(3),
        decimator_cascade_98(5),
        interpolator_cascade::<1>(),
        interpolator_cascade::<3>(),
        interpolator_cascade::<5>(),
    ]
}

fn down(block: usize, depth: usize) -> Cut {
    Cut::apart(STREAM / block, block, block >> depth)
}

fn up(block: usize, depth: usize) -> Cut {
    Cut::apart(STREAM / block, block >> depth, block)
}

fn decimator<const M: usize>(taps: [f32; M]) -> Case {
    Case {
        name: format!("HbfDec M={M}"),
        unit: Unit::Input,
        blocks: BLOCKS,
        ours: Box::new(move |block| {
            let opened = gauge_line::HbfDec::new(&taps);
            let converter = ours(opened, |hbf, src, dst| accepted(hbf.process(src, dst)));
            side(converter, down(block, 1), levels)
        }),
        rust: Box::new(move |block| side(HbfDec::new(taps), down(block, 1), levels)),
    }
}

fn interpolator<const M: usize>(taps: [f32; M]) -> Case {
    Case {
        name: format!("HbfInt M={M}"),
        unit: Unit::Output,
        blocks: BLOCKS,
        ours: Box::new(move |block| {
            let opened = gauge_line::HbfInt::new(&taps);
            let converter = ours(opened, |hbf, src, dst| accepted(hbf.process(src, dst)));
            side(converter, up(block, 1), levels)
        }),
        rust: Box::new(move |block| side(HbfInt::new(taps), up(block, 1), levels)),
    }
}

fn decimator_cascade<const DEPTH: usize>() -> Case {
    let cut = |block| down(block, DEPTH);
    Case {
        name: format!("HbfDecCascade depth {DEPTH}"),
        unit: Unit::Input,
        blocks: BLOCKS,
        ours: Box::new(move |block| {
            let opened = gauge_line::HbfDecCascade::new(DEPTH);
            let converter = ours(opened, |hbf, src, dst| accepted(hbf.process(src, dst)));
            side(converter, cut(block), levels)
        }),
        rust: Box::new(move |block| side(HbfDecCascade::<DEPTH>::new(), cut(block), levels)),
    }
}

// The Rust has no such cascade: a chain of its stages.
fn decimator_cascade_98(depth: usize) -> Case {
    let cut = move |block| down(block, depth);
    Case {
        name: format!("HbfDecCascade98 depth {depth}"),
        unit: Unit::Input,
        blocks: BLOCKS,
        ours: Box::new(move |block| {
            let opened = gauge_line::HbfDecCascade98::new(depth);
            let converter = ours(opened, |hbf, src, dst| accepted(hbf.process(src, dst)));
            side(converter, cut(block), levels)
        }),
        rust: Box::new(move |block| side(Chain98::new(depth), cut(block), levels)),
    }
}

fn interpolator_cascade<const DEPTH: usize>() -> Case {
    let cut = |block| up(block, DEPTH);
    Case {
        name: format!("HbfIntCascade depth {DEPTH}"),
        unit: Unit::Output,
        blocks: BLOCKS,
        ours: Box::new(move |block| {
            let opened = gauge_line::HbfIntCascade::new(DEPTH);
            let converter = ours(opened, |hbf, src, dst| accepted(hbf.process(src, dst)));
            side(converter, cut(block), levels)
        }),
        rust: Box::new(move |block| side(HbfIntCascade::<DEPTH>::new(), cut(block), levels)),
    }
}
