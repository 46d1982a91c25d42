//! Cases of `polyphase_decimate_q15` and `polyphase_interpolate_q15`.

use crate::archive::q15 as archive;
use crate::calls::Free;
use crate::case::{Case, Cases, Operation};
use crate::field::fields;
use crate::lent::{Lent, Slice};
use crate::q15_samples;
use crate::refusals;
use crate::rng::Rng;
use crate::samples;
use crate::settings::{self, MOST};
use crate::values;
use embedded_dsp::resampling::{polyphase_decimate_q15, polyphase_interpolate_q15};
use embedded_dsp::types::q15;

pub type Block = Free<Buffers, Filtered>;

const DECIMATE: Operation<Block> = Operation {
    code: 0x31,
    name: "polyphase_decimate_q15",
    refusal: Some(|call| call.lent.refusal(refusals::q15_block)),
    rust: |call| call.answer = call.lent.run(polyphase_decimate_q15, decimated_sum),
    archive: archive::polyphase_decimate_q15,
};

const INTERPOLATE: Operation<Block> = Operation {
    code: 0x32,
    name: "polyphase_interpolate_q15",
    refusal: Some(|call| call.lent.refusal(refusals::q15_up)),
    rust: |call| call.answer = call.lent.run(polyphase_interpolate_q15, interpolated_sum),
    archive: archive::polyphase_interpolate_q15,
};

type Rust = fn(&[q15], &[q15], usize, &mut [q15]) -> usize;

/// What output `i` is cut from, by samples, taps and factor.
type Sum = fn(&[i16], &[i16], usize, usize) -> i64;

/// "Each product is floored by itself."
fn floored(sample: i16, tap: i16) -> i64 {
    (i64::from(sample) * i64::from(tap)).div_euclid(32_768)
}

/// 01, section 3: "the sum over t of floor(s[iD+t] × c[t] / 32768)".
fn decimated_sum(samples: &[i16], taps: &[i16], factor: usize, i: usize) -> i64 {
    let window = &samples[i * factor..];
    window.iter().zip(taps).map(|(&s, &c)| floored(s, c)).sum()
}

/// 01, section 7: output iL+p is cut from "L × sum over t<K of floor(s[i+t] × c[tL+p] / 32768)".
fn interpolated_sum(samples: &[i16], taps: &[i16], factor: usize, j: usize) -> i64 {
    let phase = taps[j % factor..].iter().step_by(factor);
    let window = &samples[j / factor..];
    let sum: i64 = window.iter().zip(phase).map(|(&s, &c)| floored(s, c)).sum();
    factor as i64 * sum
}

/// How many of the Rust's outputs were cut. The Rust does not tell it: by the sums that they are cut from, which have to be theirs.
fn cuts(outputs: &[i16], sum: impl Fn(usize) -> i64) -> u64 {
    let sums: Vec<i64> = (0..outputs.len()).map(sum).collect();
    let held = sums.iter().map(|&sum| values::cut(sum));
    assert!(held.eq(outputs.iter().copied()), "not the Rust's sums");
    values::cuts(sums)
}

fields! {
    /// What a call is lent.
    pub struct Buffers {
        factor: u64,
        samples: Slice<i16>,
        taps: Slice<i16>,
        span: Slice<i16>,
    }
}

fields! {
    /// How many outputs were written, and how many of them were cut.
    pub struct Filtered {
        written: u64,
        cuts: u64,
    }
}

impl Buffers {
    fn refusal(&self, number: fn(u64, usize, usize, usize) -> u32) -> u32 {
        number(
            self.factor,
            self.taps.len(),
            self.samples.len(),
            self.span.len(),
        )
    }

    fn run(&mut self, rust: Rust, sum: Sum) -> Filtered {
        let mut places = q15_samples::rust(&self.span.elements);
        let written = rust(
            &q15_samples::rust(&self.samples.elements),
            &q15_samples::rust(&self.taps.elements),
            self.factor as usize,
            &mut places,
        );
        self.span.elements = q15_samples::bits(&places);
        let (samples, taps) = (&self.samples.elements, &self.taps.elements);
        let factor = self.factor as usize;
        Filtered {
            written: written as u64,
            cuts: cuts(&self.span.elements[..written], |i| {
                sum(samples, taps, factor, i)
            }),
        }
    }
}

/// Every output of a whole list.
pub fn decimated(taps: &[i16], factor: u64, list: &[i16]) -> Vec<i16> {
    let (list, taps) = (q15_samples::rust(list), q15_samples::rust(taps));
    let mut outputs = list.clone();
    let made = polyphase_decimate_q15(&list, &taps, factor as usize, &mut outputs);
    q15_samples::bits(&outputs[..made])
}

/// How many of them were cut.
pub fn decimated_cuts(taps: &[i16], factor: u64, list: &[i16]) -> u64 {
    let sum = |i| decimated_sum(list, taps, factor as usize, i);
    cuts(&decimated(taps, factor, list), sum)
}

/// The same as it is drawn.
struct Drawn {
    factor: u64,
    samples: Lent,
    taps: Lent,
    span: Lent,
}

impl Drawn {
    fn of(rng: &mut Rng, factor: u64, samples: u64, taps: u64, span: u64) -> Self {
        Drawn {
            factor,
            samples: q15_samples::list(rng, samples),
            taps: q15_samples::list(rng, taps),
            span: samples::span(rng, span),
        }
    }

    fn case(self, operation: Operation<Block>) -> Box<dyn Case> {
        let lent = Buffers {
            factor: self.factor,
            samples: self.samples.into(),
            taps: self.taps.into(),
            span: Slice::span(self.span),
        };
        operation.of(lent).0
    }

    /// Often makes every sample and every tap −32768, of which 65,536 products come to 2^31.
    fn fill(&mut self, rng: &mut Rng) {
        if rng.one_in(3) {
            self.samples = Lent::pattern(self.samples.length as u64, 0x8000, 0);
            self.taps = Lent::pattern(self.taps.length as u64, 0x8000, 0);
        }
    }

    /// Gives it one fault, or several at once, of which the table's first is answered.
    fn spoil(&mut self, rng: &mut Rng) {
        let faults = rng.within(1, 31);
        if faults & 1 != 0 {
            self.factor = settings::bad_factor(rng);
        }
        if faults & 2 != 0 {
            self.taps.length = settings::bad_length(rng);
        }
        if faults & 4 != 0 {
            self.samples.length = settings::bad_length(rng);
        }
        if faults & 8 != 0 {
            self.span.length = settings::bad_places(rng);
        }
        if faults & 16 != 0 {
            self.taps.length += 1;
        }
    }
}

/// T, D and n around each other.
fn some_decimation(rng: &mut Rng) -> Drawn {
    let taps = match rng.below(64) {
        0 => rng.within(65, 2000),
        1..=8 => rng.within(9, 64),
        _ => rng.within(1, 8),
    };
    let factor = settings::factor_around(rng, taps);
    let samples = match rng.below(24) {
        0..=3 => rng.pick(&[1, taps / 2, taps - 1]).max(1),
        4 => taps + rng.within(17, 100) * factor,
        _ => taps + rng.below(16) * factor + rng.pick(&[0, 0, 1, factor - 1]),
    };
    let samples = samples.min(MOST);
    let outputs = match samples.checked_sub(taps) {
        Some(past) => past / factor + 1,
        None => 0,
    };
    let span = settings::places_around(rng, outputs);
    Drawn::of(rng, factor, samples, taps, span)
}

/// L, K and n around each other, and a span that may end inside a sample's outputs.
fn some_interpolation(rng: &mut Rng) -> Drawn {
    let (factor, each) = match rng.below(128) {
        0 => (rng.pick(&[255, 1000, 4095, 4096]), rng.within(1, 4)),
        1..=24 => (rng.within(9, 64), rng.within(1, 8)),
        _ => (rng.within(1, 8), rng.within(1, 12)),
    };
    let samples = match rng.below(6) {
        0 => rng.pick(&[1, each / 2, each - 1]).max(1),
        _ => each + rng.below(if factor > 64 { 2 } else { 6 }),
    };
    let outputs = (samples + 1).saturating_sub(each) * factor;
    let span = settings::places_around(rng, outputs);
    Drawn::of(rng, factor, samples, each * factor, span)
}

/// At 01's limits and past them. A small span or a large factor keeps the work small.
fn longest_decimation(rng: &mut Rng) -> Drawn {
    let samples = settings::length_around(rng);
    let mut block = match rng.below(4) {
        0 => {
            let (taps, span) = (rng.within(1, 4), settings::length_around(rng));
            let factor = rng.pick(&[2048, 4095, 4096]);
            Drawn::of(rng, factor, samples, taps, span)
        }
        _ => {
            let (taps, span) = (settings::length_around(rng), rng.within(1, 3));
            Drawn::of(rng, 1, samples, taps, span)
        }
    };
    block.fill(rng);
    block
}

fn longest_interpolation(rng: &mut Rng) -> Drawn {
    let factor = rng.pick(&[1, 16, 256, 4096]);
    let taps = rng.pick(&[MOST - factor, MOST, MOST, MOST + factor]);
    let samples = match rng.below(2) {
        0 => taps / factor + rng.below(2),
        _ => settings::length_around(rng),
    };
    let span = match factor {
        4096 => rng.pick(&[4095, 4097]),
        _ => rng.within(1, 6),
    };
    let mut block = Drawn::of(rng, factor, samples, taps, span);
    block.fill(rng);
    block
}

/// As long as 01 allows, and of any samples.
pub fn long(rng: &mut Rng) -> Cases {
    let (factor, each) = (rng.within(1, 8), rng.within(1, 24));
    let operation = rng.pick(&[DECIMATE, INTERPOLATE]);
    let (taps, takes, gives) = match operation.code == DECIMATE.code {
        true => (each, factor, 1),
        false => (each * factor, 1, factor),
    };
    let (samples, span) = settings::long_block(rng, takes, gives);
    let mut block = Drawn::of(rng, factor, samples, taps, span);
    block.samples = q15_samples::noise(rng, samples);
    vec![block.case(operation)]
}

pub fn cases(rng: &mut Rng) -> Cases {
    match rng.below(256) {
        0 => vec![longest_decimation(rng).case(DECIMATE)],
        1 => vec![longest_interpolation(rng).case(INTERPOLATE)],
        2..=15 => {
            let mut block = some_decimation(rng);
            block.spoil(rng);
            vec![block.case(DECIMATE)]
        }
        16..=32 => {
            let mut block = some_interpolation(rng);
            block.spoil(rng);
            vec![block.case(INTERPOLATE)]
        }
        33..=140 => vec![some_decimation(rng).case(DECIMATE)],
        _ => vec![some_interpolation(rng).case(INTERPOLATE)],
    }
}
