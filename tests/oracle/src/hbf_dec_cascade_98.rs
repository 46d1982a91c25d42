//! 02, request 11: the 98 dB cascade, as a chain of the Rust's `HbfDec` with its table; how far cascades reach back, by the request's sum over the Rust's tables.

use crate::archive::float;
use crate::calls::{Free, Value};
use crate::cascade::{Block, Cascade, New, Reset, State};
use crate::case::{Cases, Operation};
use crate::field::fields;
use crate::hbf_table;
use crate::refusals;
use crate::rng::Rng;
use crate::settings;
use crate::values::Depth;
use embedded_dsp::resampling::{HBF_TAPS, HBF_TAPS_98, HbfDec};

pub type Reach = Free<Depth, Value<u64>>;
pub type TapTable = Free<(), Table>;

pub struct Decimators;

impl Cascade<480> for Decimators {
    const TAKES: usize = 2;
    const GIVES: usize = 1;

    const NEW: Operation<New<480>> = Operation {
        code: 0,
        name: "HbfDecCascade98::new",
        refusal: Some(|call| refusals::cascade_opening(call.lent.depth)),
        rust: |call| call.answer.depth = call.lent.depth,
        archive: float::hbf_dec_cascade_98_new,
    };

    const PROCESS: Operation<Block<480>> = Operation {
        code: 0,
        name: "HbfDecCascade98::process",
        refusal: Some(Block::refusal),
        rust: process,
        archive: float::hbf_dec_cascade_98_process,
    };

    const RESET: Operation<Reset<480>> = Operation {
        code: 0,
        name: "HbfDecCascade98::reset",
        refusal: Some(|call| call.state.refusal()),
        rust: |call| call.state.delays.fill(0.0),
        archive: float::hbf_dec_cascade_98_reset,
    };
}

const REACH: Operation<Reach> = Operation {
    code: 0,
    name: "hbf_dec_reach",
    refusal: Some(|call| refusals::depth(call.lent.depth)),
    rust: |call| {
        let lengths = [
            HBF_TAPS.4.0.len(),
            HBF_TAPS.3.0.len(),
            HBF_TAPS.2.0.len(),
            HBF_TAPS.1.0.len(),
            HBF_TAPS.0.0.len(),
        ];
        call.answer.value = reach(lengths, call.lent.depth);
    },
    archive: float::hbf_dec_reach,
};

const REACH_98: Operation<Reach> = Operation {
    code: 0,
    name: "hbf_dec_reach_98",
    refusal: Some(|call| refusals::depth(call.lent.depth)),
    rust: |call| {
        let lengths = [
            HBF_TAPS_98.4.0.len(),
            HBF_TAPS_98.3.0.len(),
            HBF_TAPS_98.2.0.len(),
            HBF_TAPS_98.1.0.len(),
            HBF_TAPS_98.0.0.len(),
        ];
        call.answer.value = reach(lengths, call.lent.depth);
    },
    archive: float::hbf_dec_reach_98,
};

/// The printed decimals, rounded by another route than the compiler's.
const TAP_TABLE: Operation<TapTable> = Operation {
    code: 0,
    name: "hbf_tap_table_98",
    refusal: None,
    rust: |call| call.answer.taps.copy_from_slice(&hbf_table::rounded_98()),
    archive: float::hbf_tap_table_98,
};

fields! {
    /// The taps of all stages.
    pub struct Table {
        taps: [f32; 29],
    }
}

/// "1 plus the sum over stage i of (4M−2) × 2^i"
fn reach(lengths: [usize; 5], depth: u64) -> u64 {
    let stages = lengths.into_iter().enumerate().take(depth as usize);
    1 + stages.map(|(i, m)| (4 * m as u64 - 2) << i).sum::<u64>()
}

/// All samples through one of the Rust's stages.
fn through<const M: usize>(taps: [f32; M], delay: &mut [f32], samples: &[f32]) -> Vec<f32> {
    let state: &[f32; 96] = (&*delay).try_into().unwrap();
    let mut stage = HbfDec::from_parts(taps, *state);
    let mut outputs = vec![0.0; samples.len() / 2];
    stage.process(samples, &mut outputs);
    delay.copy_from_slice(&stage.parts().1);
    outputs
}

/// "M = 2, 3, 3, 6, 15 from the highest rate": the table's last stage first.
fn stage(k: usize, delay: &mut [f32], samples: &[f32]) -> Vec<f32> {
    match k {
        0 => through(HBF_TAPS_98.4.0, delay, samples),
        1 => through(HBF_TAPS_98.3.0, delay, samples),
        2 => through(HBF_TAPS_98.2.0, delay, samples),
        3 => through(HBF_TAPS_98.1.0, delay, samples),
        _ => through(HBF_TAPS_98.0.0, delay, samples),
    }
}

/// The whole frames that samples and span allow, stage after stage.
fn process(call: &mut Block<480>) {
    let State { depth, delays } = &mut call.state;
    let (takes, gives) = Decimators::frame(*depth);
    let written = call.lent.whole(takes, gives) as usize;
    let mut values = call.lent.samples.elements[..written * takes].to_vec();
    for (k, delay) in delays.chunks_mut(96).enumerate().take(*depth as usize) {
        values = stage(k, delay, &values);
    }
    call.lent.span.elements[..written].copy_from_slice(&values);
    call.answer.written = written as u64;
}

fn some_depth(rng: &mut Rng) -> Depth {
    let depth = match rng.below(3) {
        0 => settings::bad_depth(rng),
        _ => rng.below(6),
    };
    Depth { depth }
}

/// Every depth's reach and the table.
pub fn fixed() -> Cases {
    let depths = (0..=6).map(|depth| Depth { depth });
    let mut cases: Cases = depths
        .flat_map(|depth| [REACH.of(depth.clone()).0, REACH_98.of(depth).0])
        .collect();
    cases.push(TAP_TABLE.of(()).0);
    cases
}

pub fn cases(rng: &mut Rng) -> Cases {
    match rng.below(32) {
        0 => vec![REACH.of(some_depth(rng)).0],
        1 => vec![REACH_98.of(some_depth(rng)).0],
        _ => Decimators::cases(rng),
    }
}
