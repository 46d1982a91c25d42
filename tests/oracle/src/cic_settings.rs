//! The settings of a CIC converter, N and r: within 01's limits, at their ends and outside.

use crate::field::fields;
use crate::refusals;
use crate::rng::Rng;
use crate::settings::bad_factor;

const MOST: u64 = 4096;

fields! {
    /// What a CIC converter is opened with.
    pub struct Settings {
        stages: u64,
        r: u64,
    }
}

impl Settings {
    pub fn refusal(&self) -> u32 {
        refusals::cic_opening(self.stages, self.r)
    }
}

/// Every N and r within the limits.
pub fn every() -> impl Iterator<Item = Settings> {
    (1..=8).flat_map(|stages| (1..=MOST).map(move |r| Settings { stages, r }))
}

pub fn stages(rng: &mut Rng) -> u64 {
    rng.within(1, 8)
}

/// A factor within the limits, small ones often.
pub fn factor(rng: &mut Rng) -> u64 {
    match rng.below(16) {
        0 => rng.within(1, MOST),
        1 => rng.within(65, 512),
        2 => (1u64 << rng.within(1, 12)) - rng.below(2),
        3 => rng.pick(&[MOST, MOST - 1]),
        4 | 5 => rng.within(13, 16),
        6 | 7 => rng.within(9, 64),
        _ => rng.within(1, 8),
    }
}

/// A factor of at most `most`.
pub fn factor_up_to(rng: &mut Rng, most: u64) -> u64 {
    loop {
        let r = factor(rng);
        if r <= most {
            return r;
        }
    }
}

/// A factor at which the bits of r^power change: from 31 to 32, to a gain that is held, at a power of 2, at 1.
pub fn gain_edge(rng: &mut Rng, power: u64) -> u64 {
    let within = |bits: u32| {
        let fits = |r: &u64| u128::from(*r).pow(power as u32) <= 1 << bits;
        (1..=MOST).rev().find(fits).unwrap_or(1)
    };
    let last = match rng.below(6) {
        0 | 1 => within(64),
        2 => 1 << rng.below(13),
        _ => within(31),
    };
    (last + rng.below(3)).saturating_sub(1).clamp(1, MOST)
}

pub fn bad_stages(rng: &mut Rng) -> u64 {
    rng.pick(&[0, 0, 9, 9, 10, 4096, 1 << 32, (1 << 32) + 1, u64::MAX])
}

/// Settings of which one or both may be outside the limits.
pub fn any(rng: &mut Rng) -> Settings {
    let (stages, r) = match rng.below(8) {
        0 => (bad_stages(rng), factor(rng)),
        1 => (stages(rng), bad_factor(rng)),
        2 => (bad_stages(rng), bad_factor(rng)),
        _ => (stages(rng), factor(rng)),
    };
    Settings { stages, r }
}
