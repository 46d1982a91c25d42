//! Q15 samples and taps: the ends of the range, the numbers around 0, anything.

use crate::fir_decimator::MOST_TAPS;
use crate::lent::{Lent, Slice};
use crate::rng::Rng;
use embedded_dsp::types::q15;

/// As the Rust has them.
pub fn rust(samples: &[i16]) -> Vec<q15> {
    samples.iter().map(|&bits| q15::from_bits(bits)).collect()
}

pub fn bits(samples: &[q15]) -> Vec<i16> {
    samples.iter().map(|sample| sample.to_bits()).collect()
}

pub fn one(rng: &mut Rng) -> i16 {
    match rng.below(4) {
        0 => rng.pick(&[i16::MIN, i16::MAX, 0, 1, -1]),
        1 => rng.within(0, 200) as i16 - 100,
        _ => rng.next() as i16,
    }
}

/// `length` samples: some of them listed, or all at one level so that a sum leaves 16 bits, or every number in turn.
pub fn list(rng: &mut Rng, length: u64) -> Lent {
    let levels = [0x8000, 0x8000, 0x7fff, 0x8001, 0xc000, 0x4000];
    let level = rng.pick(&levels);
    match rng.below(8) {
        0 | 1 => Lent::pattern(length, level, 0),
        2 => Lent::pattern(length, rng.next() as u32, rng.next() as u32 | 1),
        _ => {
            let most = rng.pick(&[4, 24, 80]);
            Lent {
                length: length as usize,
                pattern: level,
                stride: rng.pick(&[0, 1, 0x3039]),
                listed: (0..length.min(most))
                    .map(|_| u32::from(one(rng) as u16))
                    .collect(),
            }
        }
    }
}

/// `length` samples, all of them listed.
pub fn noise(rng: &mut Rng, length: u64) -> Lent {
    Lent::listed((0..length).map(|_| u32::from(one(rng) as u16)).collect())
}

/// The places of a state's array.
pub fn places(rng: &mut Rng) -> [i16; MOST_TAPS as usize] {
    let slice: Slice<i16> = list(rng, MOST_TAPS).into();
    std::array::from_fn(|i| slice.elements[i])
}
