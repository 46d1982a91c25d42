//! f32 samples, taps and delays: levels of a signal, signed zeros, subnormals, the ends of the range, infinities, NaN, anything.

use crate::lent::{Lent, Slice};
use crate::rng::Rng;

const SPECIAL: [f32; 16] = [
    0.0,
    -0.0,
    1.0,
    -1.0,
    f32::MAX,
    f32::MIN,
    f32::MIN_POSITIVE,
    -f32::MIN_POSITIVE,
    1e-45,
    -1e-45,
    1.1754942e-38,
    16_777_216.0,
    f32::EPSILON,
    f32::INFINITY,
    f32::NEG_INFINITY,
    f32::NAN,
];

/// A finite value, from about 2^-8 to 2^8 and of either sign.
pub fn level(rng: &mut Rng) -> f32 {
    let exponent = rng.within(119, 135) as u32;
    let sign = rng.below(2) as u32;
    f32::from_bits(sign << 31 | exponent << 23 | rng.next() as u32 >> 9)
}

pub fn one(rng: &mut Rng) -> f32 {
    match rng.below(8) {
        0 => rng.pick(&SPECIAL),
        1 => f32::from_bits(rng.next() as u32),
        2 => rng.next() as i16 as f32 / 32768.0,
        _ => level(rng),
    }
}

/// As a word: every NaN is one.
fn word(x: f32) -> u32 {
    if x.is_nan() { 0x7fc0_0000 } else { x.to_bits() }
}

/// Up to `most` values listed, and more at one level or rising by a stride.
fn listed(rng: &mut Rng, length: u64, most: u64, value: fn(&mut Rng) -> f32) -> Lent {
    Lent {
        length: length as usize,
        pattern: word(value(rng)),
        stride: rng.pick(&[0, 1, 0x1235, 0x8001]),
        listed: (0..length.min(most)).map(|_| word(value(rng))).collect(),
    }
}

/// `length` samples: more often levels alone, which leave every output a number.
pub fn list(rng: &mut Rng, length: u64) -> Lent {
    let most = rng.pick(&[4, 12, 40]);
    match rng.below(16) {
        0 => Lent::pattern(length, word(rng.pick(&SPECIAL)), 0),
        1 => Lent::pattern(length, rng.next() as u32, rng.next() as u32),
        2 | 3 => Lent::pattern(length, word(level(rng)), rng.below(1 << 16) as u32),
        4 | 5 => listed(rng, length, most, one),
        _ => listed(rng, length, most, level),
    }
}

/// `length` levels, all of them listed.
pub fn noise(rng: &mut Rng, length: u64) -> Lent {
    Lent::listed((0..length).map(|_| word(level(rng))).collect())
}

/// The places of a state's array.
pub fn places<const N: usize>(rng: &mut Rng) -> [f32; N] {
    let slice: Slice<f32> = list(rng, N as u64).into();
    std::array::from_fn(|i| slice.elements[i])
}

/// The same, levels alone.
pub fn levels<const N: usize>(rng: &mut Rng) -> [f32; N] {
    std::array::from_fn(|_| level(rng))
}
