//! 02, request 8, written from its paragraph in numbers of 128 bits: the samples of which every sum of a CIC decimator is exact, those sums, one sample past
//! them that comes round, and what rounding takes from a sum of the decimating FIR.

use crate::archive::{integer, q15};
use crate::calls::{Free, Single};
use crate::case::{Case, Cases, Operation};
use crate::cic_decimator::{self, State};
use crate::cic_settings::{self, Settings};
use crate::field::fields;
use crate::lent::{Lent, Slice};
use crate::polyphase_q15;
use crate::q15_samples;
use crate::refusals;
use crate::rng::Rng;
use crate::settings;
use crate::stream::{Lists, Stream};

pub type Range = Free<State, Ends>;
type Sums = Free<Lists<Settings, i32>, Outputs>;
type Past = Free<Lists<Settings, i32>, Last>;
type Rounding = Free<Filter, Bound>;

const EXACT_RANGE: Operation<Range> = Operation {
    code: 0,
    name: "CicDecimator::exact_range",
    refusal: Some(|call| {
        let state = &call.lent;
        refusals::cic_scaled(state.stages, state.r, state.sample_counter)
    }),
    rust: |call| call.answer = Ends::of(call.lent.stages, call.lent.r),
    archive: integer::cic_decimator_exact_range,
};

const SUMS: Operation<Sums> = Operation {
    code: 0,
    name: "CicDecimator, every sum of samples within the range",
    refusal: None,
    rust: |call| {
        let Settings { stages, r } = call.lent.opening;
        let sums = exact_sums(stages, r, &call.lent.samples.elements);
        let scaled = |sum: &i128| sum.div_euclid(1 << gain_bits(stages, r)) as i64;
        call.answer.scaled = sums.iter().map(scaled).collect();
        call.answer.sums = sums.iter().map(|&sum| sum as i64).collect();
    },
    archive: |call| {
        let (sums, scaled) = outputs(&call.lent);
        call.answer.sums = sums;
        call.answer.scaled = scaled;
        0
    },
};

const PAST: Operation<Past> = Operation {
    code: 0,
    name: "CicDecimator, filled with a sample just past the range",
    refusal: None,
    rust: |call| {
        let exact = call.lent.last_exact();
        call.answer.sum = i64::from(exact as i32);
        call.answer.exact = u32::from(call.answer.sum == exact);
    },
    archive: |call| {
        let exact = call.lent.last_exact();
        call.answer.sum = *outputs(&call.lent).0.last().expect("the samples fill it");
        call.answer.exact = u32::from(call.answer.sum == exact);
        0
    },
};

const ROUNDING: Operation<Rounding> = Operation {
    code: 0,
    name: "polyphase_decimate_q15, exact sums less 32768 times the outputs",
    refusal: None,
    rust: |call| {
        let Filter {
            factor,
            samples,
            taps,
        } = &call.lent;
        let past_first = samples.len().checked_sub(taps.len());
        call.answer.written = past_first.map_or(0, |rest| rest as u64 / factor + 1);
    },
    archive: |call| {
        let mut block = call.lent.block();
        let refusal = q15::polyphase_decimate_q15(&mut block);
        call.answer.written = block.answer.written;
        call.answer.outside = call.lent.outside(&block.lent.span.elements);
        refusal
    },
};

fields! {
    /// The least and the greatest sample.
    pub struct Ends {
        least: i32,
        greatest: i32,
    }
}

fields! {
    /// Every sum, and every scaled one.
    pub struct Outputs {
        sums: Vec<i64>,
        scaled: Vec<i64>,
    }
}

fields! {
    /// The last sum, and whether it is the exact one.
    pub struct Last {
        sum: i64,
        exact: u32,
    }
}

fields! {
    /// A FIR and a whole list for it.
    pub struct Filter {
        factor: u64,
        samples: Slice<i16>,
        taps: Slice<i16>,
    }
}

fields! {
    /// How many outputs there are, and how many of those that are not cut leave the bound.
    pub struct Bound {
        written: u64,
        outside: u64,
    }
}

/// The least g with 2^g no less than r^N.
fn gain_bits(stages: u64, r: u64) -> u32 {
    let gain = u128::from(r).pow(stages as u32);
    (0..).find(|&g| 1 << g >= gain).expect("r^N is below 2^97")
}

impl Ends {
    /// "−2^(31−g) to 2^(31−g)−1"
    fn of(stages: u64, r: u64) -> Self {
        let reach = 1i64 << (31 - gain_bits(stages, r));
        Ends {
            least: -reach as i32,
            greatest: (reach - 1) as i32,
        }
    }
}

/// The sums of the last r numbers, zeros before the first.
fn moving_sums(list: &[i128], r: usize) -> Vec<i128> {
    let mut sum = 0;
    let leaving = std::iter::repeat_n(0, r).chain(list.iter().copied());
    let pairs = list.iter().zip(leaving);
    pairs
        .map(|(&entering, left)| {
            sum += entering - left;
            sum
        })
        .collect()
}

/// "the exact N-fold sum with no modulus", at each r-th sample.
fn exact_sums(stages: u64, r: u64, samples: &[i32]) -> Vec<i128> {
    let samples: Vec<i128> = samples.iter().map(|&sample| sample.into()).collect();
    let sums = (0..stages).fold(samples, |list, _| moving_sums(&list, r as usize));
    let r = r as usize;
    sums.into_iter().skip(r - 1).step_by(r).collect()
}

/// Every sum and every scaled one, each from an opening of its own.
fn outputs(lent: &Lists<Settings, i32>) -> (Vec<i64>, Vec<i64>) {
    let run = |process_sample: fn(&mut cic_decimator::Step) -> u64| {
        let mut stream: Stream<Settings, State, i32> = Single::of((), lent.clone());
        let refusal = stream.run(integer::cic_decimator_new, process_sample);
        assert_eq!(refusal, 0, "31 gain bits are not refused");
        stream.answer.outputs.into_iter().map(i64::from).collect()
    };
    (
        run(integer::cic_decimator_process_sample),
        run(integer::cic_decimator_process_sample_scaled),
    )
}

impl Lists<Settings, i32> {
    fn last_exact(&self) -> i64 {
        let Settings { stages, r } = self.opening;
        let sums = exact_sums(stages, r, &self.samples.elements);
        *sums.last().expect("the samples fill it") as i64
    }
}

impl Filter {
    fn block(&self) -> polyphase_q15::Block {
        let span = Lent::pattern(self.samples.len() as u64, 0x1234, 1);
        Single::of(
            (),
            polyphase_q15::Buffers {
                factor: self.factor,
                samples: self.samples.clone(),
                taps: self.taps.clone(),
                span: Slice::span(span),
            },
        )
    }

    /// Of the outputs that are inside the 16 bits, and so not cut: those that are not "at least 0 and at most 32767 times the tap count" away.
    fn outside(&self, outputs: &[i16]) -> u64 {
        let most = 32_767 * self.taps.len() as i64;
        let windows = self.samples.elements.windows(self.taps.len());
        let products = |window: &[i16]| -> i64 {
            let pairs = window.iter().zip(&self.taps.elements);
            pairs.map(|(&s, &c)| i64::from(s) * i64::from(c)).sum()
        };
        let exact = windows.step_by(self.factor as usize).map(products);
        let uncut = exact
            .zip(outputs)
            .filter(|&(_, &y)| y != i16::MIN && y != i16::MAX);
        let off = uncut.map(|(exact, &y)| exact - 32_768 * i64::from(y));
        off.filter(|off| !(0..=most).contains(off)).count() as u64
    }
}

/// Settings of at most 31 gain bits, 31 often.
fn some_settings(rng: &mut Rng) -> Settings {
    loop {
        let stages = cic_settings::stages(rng);
        let r = match rng.below(2) {
            0 => cic_settings::gain_edge(rng, stages),
            _ => cic_settings::factor(rng),
        };
        if refusals::line_cic(stages, r) == 0 {
            return Settings { stages, r };
        }
    }
}

/// One within the range, at its ends often.
fn within(rng: &mut Rng, ends: &Ends) -> i32 {
    let (least, greatest) = (i64::from(ends.least), i64::from(ends.greatest));
    let any = least + rng.below((greatest - least) as u64 + 1) as i64;
    rng.pick(&[least, greatest, any, any]) as i32
}

fn some_sums(rng: &mut Rng) -> Box<dyn Case> {
    let settings = some_settings(rng);
    let ends = Ends::of(settings.stages, settings.r);
    let outputs = (settings.stages + 2 + rng.below(8)).min(24_000 / settings.r + 1);
    let length = outputs * settings.r + rng.below(settings.r);
    let steady = rng.pick(&[ends.least, ends.greatest]) as u32;
    let samples = match rng.below(3) {
        0 => Lent::pattern(length, steady, 0),
        _ => Lent::listed((0..length).map(|_| within(rng, &ends) as u32).collect()),
    };
    SUMS.of(Lists::of(settings, samples)).0
}

/// A gain of 2^g itself, which the range can't be widened for.
fn some_past(rng: &mut Rng) -> Box<dyn Case> {
    let stages = cic_settings::stages(rng);
    let r = 1 << rng.within(1, 31 / stages.max(3));
    let ends = Ends::of(stages, r);
    let past = rng.pick(&[ends.least - 1, ends.greatest + 1]);
    let samples = Lent::pattern((stages + 1) * r, past as u32, 0);
    PAST.of(Lists::of(Settings { stages, r }, samples)).0
}

fn some_rounding(rng: &mut Rng) -> Box<dyn Case> {
    let taps = rng.within(1, 70);
    let factor = settings::factor_around(rng, taps);
    let samples = taps + rng.below(40) * factor.min(64) + rng.below(2);
    // Small enough that few sums leave 16 bits.
    let shift = rng.pick(&[0, 2, 5]);
    let tap = |rng: &mut Rng| i32::from(q15_samples::one(rng)) >> shift;
    let taps = (0..taps).map(|_| tap(rng) as u32).collect();
    let filter = Filter {
        factor,
        samples: q15_samples::noise(rng, samples).into(),
        taps: Lent::listed(taps).into(),
    };
    ROUNDING.of(filter).0
}

pub fn cases(rng: &mut Rng) -> Cases {
    vec![match rng.below(16) {
        0..=5 => EXACT_RANGE.of(cic_decimator::any(rng)).0,
        6..=9 => some_sums(rng),
        10 => some_past(rng),
        _ => some_rounding(rng),
    }]
}

/// The range of every N and r.
pub fn every_range() -> Cases {
    cic_settings::every()
        .map(|settings| {
            let state = State::opened(settings.stages, settings.r);
            EXACT_RANGE.of(state).0
        })
        .collect()
}
