//! i32 samples: the ends of the range, the numbers around 0, levels of a cell, anything.

use crate::lent::Lent;
use crate::rng::Rng;

pub fn one(rng: &mut Rng) -> i32 {
    match rng.below(4) {
        0 => rng.pick(&[i32::MIN, i32::MAX, 0, 1, -1]),
        1 => rng.within(0, 2000) as i32 - 1000,
        _ => rng.next() as i32,
    }
}

/// Eight places of a state.
pub fn eight(rng: &mut Rng) -> [i32; 8] {
    std::array::from_fn(|_| one(rng))
}

/// `length` samples, up to `listed` of them listed.
pub fn list(rng: &mut Rng, length: u64, listed: u64) -> Lent {
    Lent {
        length: length as usize,
        pattern: one(rng) as u32,
        stride: 1,
        listed: (0..length.min(listed)).map(|_| one(rng) as u32).collect(),
    }
}

/// `length` samples, all of them listed: anything, or small ones.
pub fn noise(rng: &mut Rng, length: u64) -> Lent {
    let shift = rng.pick(&[0, 8, 16]);
    let sample = |_| (rng.next() as i32 >> shift) as u32;
    Lent::listed((0..length).map(sample).collect())
}

/// A span as it is before a call: no two places next to each other are equal.
pub fn span(rng: &mut Rng, length: u64) -> Lent {
    Lent::pattern(length, rng.next() as u32, 1)
}
