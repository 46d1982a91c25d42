//! Cases of what has no state and lends no slice: the cut to 16 bits, Q15 to f32, the response lengths, the half-band table.

use crate::archive::{float, q15 as archive};
use crate::calls::{Free, Sample, Value};
use crate::case::{Case, Cases, Operation};
use crate::field::fields;
use crate::hbf_table;
use crate::q15_samples;
use crate::refusals;
use crate::rng::Rng;
use crate::settings;
use embedded_dsp::resampling::{hbf_dec_response_length, hbf_int_response_length};
use embedded_dsp::types::q15;

pub type Cut = Free<Sample<i64>, Held>;
pub type ToF32 = Free<Sample<i16>, Value<f32>>;
pub type Length = Free<Depth, Value<u64>>;
pub type TapTable = Free<(), Table>;

const CUT: Operation<Cut> = Operation {
    code: 0x34,
    name: "cut_q15",
    refusal: None,
    rust: |call| call.answer = Held::of(call.lent.sample),
    archive: archive::cut_q15,
};

const TO_F32: Operation<ToF32> = Operation {
    code: 0x52,
    name: "q15_to_f32",
    refusal: None,
    rust: |call| call.answer.value = q15::from_bits(call.lent.sample).to_num(),
    archive: float::q15_to_f32,
};

const DEC_RESPONSE_LENGTH: Operation<Length> = Operation {
    code: 0x53,
    name: "hbf_dec_response_length",
    refusal: Some(|call| refusals::depth(call.lent.depth)),
    rust: |call| call.answer.value = hbf_dec_response_length(call.lent.depth as usize) as u64,
    archive: float::hbf_dec_response_length,
};

const INT_RESPONSE_LENGTH: Operation<Length> = Operation {
    code: 0x54,
    name: "hbf_int_response_length",
    refusal: Some(|call| refusals::depth(call.lent.depth)),
    rust: |call| call.answer.value = hbf_int_response_length(call.lent.depth as usize) as u64,
    archive: float::hbf_int_response_length,
};

/// The printed decimals, rounded by another route than the compiler's.
const TAP_TABLE: Operation<TapTable> = Operation {
    code: 0x55,
    name: "hbf_tap_table",
    refusal: None,
    rust: |call| call.answer.taps.copy_from_slice(&hbf_table::rounded()),
    archive: float::hbf_tap_table,
};

fields! {
    /// How many stages a cascade has.
    pub struct Depth {
        depth: u64,
    }
}

fields! {
    /// The taps of all stages.
    pub struct Table {
        taps: [f32; 45],
    }
}

fields! {
    /// A sum cut to 16 bits, and whether that changed it.
    pub struct Held {
        value: i16,
        cut: u32,
    }
}

impl Held {
    fn of(sum: i64) -> Self {
        Held {
            value: cut(sum),
            cut: is_cut(sum).into(),
        }
    }
}

/// 01, section 2: "The line (not the Rust) cuts the scaled sum to −32,768..32,767."
pub fn cut(sum: i64) -> i16 {
    sum.clamp(-32_768, 32_767) as i16
}

/// 02, request 4: "A value already inside the range is not cut."
pub fn is_cut(sum: i64) -> bool {
    i16::try_from(sum).is_err()
}

/// How many of a list are.
pub fn cuts(sums: impl IntoIterator<Item = i64>) -> u64 {
    sums.into_iter().filter(|&sum| is_cut(sum)).count() as u64
}

/// Around the ends of 16, 32 and 64 bits, and anything.
fn some_sum(rng: &mut Rng) -> i64 {
    match rng.below(4) {
        0 => rng.next() as i64,
        1 => rng.next() as i32 as i64,
        2 => rng.next() as i16 as i64,
        _ => {
            let ends = [32_767, -32_768, 1 << 31, -(1 << 31), i64::MAX, i64::MIN, 0];
            rng.pick(&ends).saturating_add(rng.below(5) as i64 - 2)
        }
    }
}

fn some_depth(rng: &mut Rng) -> Depth {
    let depth = match rng.below(3) {
        0 => settings::bad_depth(rng),
        _ => rng.below(6),
    };
    Depth { depth }
}

fn some_call(rng: &mut Rng) -> Box<dyn Case> {
    match rng.below(32) {
        0 => TAP_TABLE.of(()).0,
        1..=4 => DEC_RESPONSE_LENGTH.of(some_depth(rng)).0,
        5..=8 => INT_RESPONSE_LENGTH.of(some_depth(rng)).0,
        9..=18 => {
            let sample = some_sum(rng);
            CUT.of(Sample { sample }).0
        }
        _ => {
            let sample = q15_samples::one(rng);
            TO_F32.of(Sample { sample }).0
        }
    }
}

pub fn cases(rng: &mut Rng) -> Cases {
    vec![some_call(rng)]
}
