//! Cases of prototypes stored phase by phase, which the Rust has not. What is expected is written from 02, request 12, over rows of rows.

use crate::archive::float;
use crate::calls::{Free, Written};
use crate::case::{Cases, Operation};
use crate::field::fields;
use crate::float_samples;
use crate::lent::{Lent, Slice};
use crate::refusals;
use crate::rng::Rng;
use crate::samples;

pub type Rearranging = Free<Values, Written>;

const BY_PHASE: Operation<Rearranging> = Operation {
    code: 0,
    name: "prototype_by_phase",
    refusal: Some(|call| call.lent.refusal()),
    rust: |call| call.fill(by_phase),
    archive: float::prototype_by_phase,
};

const BY_TAP: Operation<Rearranging> = Operation {
    code: 0,
    name: "prototype_by_tap",
    refusal: Some(|call| call.lent.refusal()),
    rust: |call| call.fill(by_tap),
    archive: float::prototype_by_tap,
};

fields! {
    /// What a call is lent: the values in one order, and a span for the other.
    pub struct Values {
        phases: u64,
        taps: u64,
        values: Slice<f32>,
        span: Slice<f32>,
    }
}

impl Values {
    fn of(phases: u64, taps: u64, values: Lent, span: Lent) -> Self {
        Values {
            phases,
            taps,
            values: values.into(),
            span: Slice::span(span),
        }
    }

    fn refusal(&self) -> u32 {
        refusals::phase_rows(self.phases, self.taps, self.values.len(), self.span.len())
    }
}

impl Rearranging {
    fn fill(&mut self, rearranged: fn(&[f32], usize, usize) -> Vec<f32>) {
        let lent = &mut self.lent;
        let (phases, taps) = (lent.phases as usize, lent.taps as usize);
        let values = rearranged(&lent.values.elements, phases, taps);
        lent.span.elements.copy_from_slice(&values);
        self.answer.written = values.len() as u64;
    }
}

/// "one phase a row": a row takes every P-th value, from its phase on.
fn by_phase(prototype: &[f32], phases: usize, _taps: usize) -> Vec<f32> {
    let mut rows = vec![Vec::new(); phases];
    for (at, value) in prototype.iter().enumerate() {
        rows[at % phases].push(*value);
    }
    rows.concat()
}

/// "and its inverse": the first value of every row, then the second of every row, ..
fn by_tap(values: &[f32], _phases: usize, taps: usize) -> Vec<f32> {
    let rows: Vec<&[f32]> = values.chunks(taps).collect();
    let column = |t: usize| rows.iter().map(move |row| row[t]);
    (0..taps).flat_map(column).collect()
}

/// Every P and T within the limits, with values that all differ.
pub fn every_size() -> Cases {
    let sizes = (2..=64).flat_map(|phases| (1..=16).map(move |taps| (phases, taps)));
    let values = |(phases, taps)| {
        let differ = |from| Lent::pattern(phases * taps, from, 1);
        Values::of(phases, taps, differ(0x3f80_0000), differ(0x4f80_0000))
    };
    sizes
        .map(values)
        .flat_map(|lent| [BY_PHASE.of(lent.clone()).0, BY_TAP.of(lent).0])
        .collect()
}

/// A length around the one that fits.
fn near(rng: &mut Rng, length: u64) -> u64 {
    match rng.below(8) {
        0 => length.saturating_sub(1),
        1 => length + 1,
        2 => rng.below(40),
        _ => length,
    }
}

fn some_values(rng: &mut Rng) -> Values {
    let (mut phases, mut taps) = (rng.within(2, 64), rng.within(1, 16));
    let fits = phases * taps;
    if rng.one_in(6) {
        phases = rng.pick(&[0, 1, 65, taps, u64::MAX]);
    }
    if rng.one_in(6) {
        taps = rng.pick(&[0, 17, phases, 1 << 63]);
    }
    let (length, places) = (near(rng, fits), near(rng, fits));
    let values = float_samples::list(rng, length);
    Values::of(phases, taps, values, samples::span(rng, places))
}

pub fn cases(rng: &mut Rng) -> Cases {
    let lent = some_values(rng);
    let operation = rng.pick(&[BY_PHASE, BY_TAP]);
    vec![operation.of(lent).0]
}
