//! 01, "Where each call is turned back", and 02, written from their text: the number of the first row that applies, or 0.

use crate::fir_decimator::MOST_TAPS;

const STAGES: u32 = 1;
const FACTOR: u32 = 2;
const GAIN_BITS: u32 = 3;
const SPAN: u32 = 4;
const FIR_FACTOR: u32 = 5;
const TAPS: u32 = 6;
const SAMPLES: u32 = 7;
const TAPS_MULTIPLE: u32 = 8;
const RATIO: u32 = 9;
const HALF_BAND_TAPS: u32 = 10;
const DEPTH: u32 = 11;
const PHASES: u32 = 12;
const PROTOTYPE: u32 = 13;
const STEP: u32 = 14;
pub const STATE: u32 = 15;
const PHASE_TAPS: u32 = 19;
const LENGTHS: u32 = 20;
const POWER_OF_TWO: u32 = 23;

/// The most samples, taps and places of a block.
const MOST: usize = 65_536;

/// "The first that applies, downward, is returned": of the parts' numbers in the order of the table.
pub fn first<const N: usize>(numbers: [u32; N]) -> u32 {
    numbers.into_iter().find(|&number| number != 0).unwrap_or(0)
}

/// "CIC opening": 1 where N is not 1..8, 2 where r is not 1..4,096.
pub fn cic_opening(stages: u64, r: u64) -> u32 {
    if !(1..=8).contains(&stages) {
        STAGES
    } else if !(1..=4096).contains(&r) {
        FACTOR
    } else {
        0
    }
}

/// "any call on a state": settings that its opening refuses; `sample_counter` not below r.
pub fn cic_decimator(stages: u64, r: u64, sample_counter: u64) -> u32 {
    if cic_opening(stages, r) != 0 || sample_counter >= r {
        STATE
    } else {
        0
    }
}

/// "23 when the factor is not a power of two, right after 2".
pub fn nonrecursive_opening(stages: u64, r: u64) -> u32 {
    match cic_opening(stages, r) {
        0 if !r.is_power_of_two() => POWER_OF_TWO,
        number => number,
    }
}

/// "Its place among the factor's samples, when not below the factor, is 15".
pub fn nonrecursive_decimator(stages: u64, r: u64, place: u64) -> u32 {
    if nonrecursive_opening(stages, r) != 0 || place >= r {
        STATE
    } else {
        0
    }
}

/// The scaled call: 15, then 3 where the gain bits are over 31.
pub fn cic_scaled(stages: u64, r: u64, sample_counter: u64) -> u32 {
    match cic_decimator(stages, r, sample_counter) {
        0 if over_31_bits(stages, r) => GAIN_BITS,
        number => number,
    }
}

/// "line": 1 and 2, then 3 where the gain bits are over 31.
pub fn line_cic(stages: u64, r: u64) -> u32 {
    match cic_opening(stages, r) {
        0 if over_31_bits(stages, r) => GAIN_BITS,
        number => number,
    }
}

/// 02, request 13: a line that neighbours thin has "23 .. right after 2", then 3.
pub fn line_thinning(thinning: u64, stages: u64, r: u64) -> u32 {
    let factor = match thinning {
        0 => 0,
        _ => nonrecursive_opening(stages, r),
    };
    first([factor, line_cic(stages, r)])
}

/// The least g with 2^g no less than r^N is over 31 exactly where r^N exceeds 2^31.
fn over_31_bits(stages: u64, r: u64) -> bool {
    u128::from(r).pow(stages as u32) > 1 << 31
}

/// The interpolator has no counter.
pub fn cic_interpolator(stages: u64, r: u64) -> u32 {
    if cic_opening(stages, r) != 0 {
        STATE
    } else {
        0
    }
}

/// "CIC up": 15, then 4 where the span is shorter than r.
pub fn cic_up(stages: u64, r: u64, span: usize) -> u32 {
    match cic_interpolator(stages, r) {
        0 if (span as u64) < r => SPAN,
        number => number,
    }
}

/// "Q15 blocks": 5 where the factor is not 1..4,096, 6 where the taps are none or over 65,536; then 7.
pub fn q15_block(factor: u64, taps: usize, samples: usize, span: usize) -> u32 {
    if !(1..=4096).contains(&factor) {
        FIR_FACTOR
    } else if !(1..=MOST).contains(&taps) {
        TAPS
    } else {
        block(samples, span)
    }
}

/// "blocks, linear": 7 where the samples are none, or samples or span over 65,536.
pub fn block(samples: usize, span: usize) -> u32 {
    if samples == 0 || samples > MOST || span > MOST {
        SAMPLES
    } else {
        0
    }
}

/// "Q15 up": after the blocks' rows 8, where the taps are not a multiple of L.
pub fn q15_up(factor: u64, taps: usize, samples: usize, span: usize) -> u32 {
    match q15_block(factor, taps, samples, span) {
        0 if !(taps as u64).is_multiple_of(factor) => TAPS_MULTIPLE,
        number => number,
    }
}

/// "linear": 7, then 9 where the ratio is not above zero or not finite.
pub fn linear(samples: usize, span: usize, ratio_is_good: bool) -> u32 {
    match block(samples, span) {
        0 if !ratio_is_good => RATIO,
        number => number,
    }
}

/// The streaming FIR beside the line: 5 where the factor is not 1..4,096, 6 where the taps are none or over 128.
pub fn fir_opening(taps: u64, factor: u64) -> u32 {
    if !(1..=4096).contains(&factor) {
        FIR_FACTOR
    } else if !(1..=MOST_TAPS).contains(&taps) {
        TAPS
    } else {
        0
    }
}

/// "line": no taps means off, and D is not looked at.
pub fn line_fir(taps: u64, factor: u64) -> u32 {
    match taps {
        0 => 0,
        _ => fir_opening(taps, factor),
    }
}

/// "any call on a state": settings that its opening refuses; FIR wait 0 or above both T and D.
pub fn fir_state(taps: u64, factor: u64, wait: u64) -> u32 {
    if fir_opening(taps, factor) != 0 || wait == 0 || wait > taps && wait > factor {
        STATE
    } else {
        0
    }
}

/// The same of the line's FIR: "a part that is off is not checked".
pub fn line_fir_state(taps: u64, factor: u64, wait: u64) -> u32 {
    match taps {
        0 => 0,
        _ => fir_state(taps, factor, wait),
    }
}

/// "half-band": 10 where M is not 1..23.
pub fn half_band_opening(taps: u64) -> u32 {
    if (1..=23).contains(&taps) {
        0
    } else {
        HALF_BAND_TAPS
    }
}

/// "any call on a state": settings that its opening refuses.
pub fn half_band(taps: u64) -> u32 {
    if half_band_opening(taps) != 0 {
        STATE
    } else {
        0
    }
}

/// A half-band block: 15, then 7.
pub fn half_band_block(taps: u64, samples: usize, span: usize) -> u32 {
    match half_band(taps) {
        0 => block(samples, span),
        number => number,
    }
}

/// "cascade": 11 where the depth is over 5 or 0.
pub fn cascade_opening(depth: u64) -> u32 {
    if depth == 0 || depth > 5 { DEPTH } else { 0 }
}

/// "any call on a state": settings that its opening refuses.
pub fn cascade(depth: u64) -> u32 {
    if cascade_opening(depth) != 0 {
        STATE
    } else {
        0
    }
}

/// A cascade's block: 15, then 7.
pub fn cascade_block(depth: u64, samples: usize, span: usize) -> u32 {
    match cascade(depth) {
        0 => block(samples, span),
        number => number,
    }
}

/// "lengths", and the line's cascade: 11 where the depth is over 5.
pub fn depth(depth: u64) -> u32 {
    if depth > 5 { DEPTH } else { 0 }
}

/// "any call on a state" of the streaming cascade: settings that its opening refuses; more than one held sample at one half-band stage.
pub fn held_cascade(depth: u64, counts: &[u64; 5]) -> u32 {
    let held_twice = |run: u64| counts[..run as usize].iter().any(|&count| count > 1);
    if cascade_opening(depth) != 0 || held_twice(depth) {
        STATE
    } else {
        0
    }
}

/// The same of the line's cascade: "a part that is off is not checked".
pub fn line_held_cascade(depth: u64, counts: &[u64; 5]) -> u32 {
    match depth {
        0 => 0,
        _ => held_cascade(depth, counts),
    }
}

/// "resampler": 12 where P or T is outside its limits, 13 where the prototype is not P × T long, 14 where the step is not finite or not above zero.
pub fn resampler_opening(phases: u64, taps: u64, prototype: usize, step: f32) -> u32 {
    if !(2..=64).contains(&phases) || !(1..=16).contains(&taps) {
        PHASES
    } else if prototype as u64 != phases * taps {
        PROTOTYPE
    } else if !(step.is_finite() && step > 0.0) {
        STEP
    } else {
        0
    }
}

/// 02, request 12: 12 where P or T is outside its limits, 13 where the prototype is not P × T long or the span of another length.
pub fn phase_rows(phases: u64, taps: u64, prototype: usize, span: usize) -> u32 {
    match resampler_opening(phases, taps, prototype, 1.0) {
        0 if span != prototype => PROTOTYPE,
        number => number,
    }
}

/// "line": the same, and 14 where the step is outside 1/64..64; no phases means off, and nothing else is looked at.
pub fn line_resampler(phases: u64, taps: u64, prototype: usize, step: f32) -> u32 {
    if phases == 0 {
        return 0;
    }
    match resampler_opening(phases, taps, prototype, step) {
        0 if !(0.015_625..=64.0).contains(&step) => STEP,
        number => number,
    }
}

/// "any call on a state" of the line's resampler: settings that its opening refuses; mu not in 0..1+step as rounded; "a part that is off is not checked".
pub fn line_resampler_state(phases: u64, taps: u64, step: f32, mu: f32) -> u32 {
    let whole = phases.wrapping_mul(taps) as usize;
    let good_mu = mu >= 0.0 && mu <= 1.0 + step;
    if phases != 0 && (line_resampler(phases, taps, whole, step) != 0 || !good_mu) {
        STATE
    } else {
        0
    }
}

/// "any call on a state" of the line's decimator, of either kind: what the line's opening refuses is gain bits over 31 too.
pub fn line_cic_state(thinning: u64, stages: u64, r: u64, sample_counter: u64) -> u32 {
    if line_thinning(thinning, stages, r) != 0 || sample_counter >= r {
        STATE
    } else {
        0
    }
}

/// "any call on a state": settings that its opening refuses; mu not in −2^24..1+step as rounded.
pub fn resampler(phases: u64, taps: u64, step: f32, mu: f32) -> u32 {
    let whole = phases.wrapping_mul(taps) as usize;
    let good_mu = mu >= -16_777_216.0 && mu <= 1.0 + step;
    if resampler_opening(phases, taps, whole, step) != 0 || !good_mu {
        STATE
    } else {
        0
    }
}

/// 02, request 2: 19 where M is not 1..23.
pub fn linear_phase_opening(taps: u64) -> u32 {
    if (1..=23).contains(&taps) {
        0
    } else {
        PHASE_TAPS
    }
}

/// "any call on a state": settings that its opening refuses.
pub fn linear_phase(taps: u64) -> u32 {
    if linear_phase_opening(taps) != 0 {
        STATE
    } else {
        0
    }
}

/// A block: 15, then 20 where source and span differ in length.
pub fn linear_phase_block(taps: u64, samples: usize, span: usize) -> u32 {
    match linear_phase(taps) {
        0 if samples != span => LENGTHS,
        number => number,
    }
}
