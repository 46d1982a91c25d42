//! The limits past which an opening or a block is refused, and the lengths of the arrays in a state.
//!
//! Printed by host/bindings/run.sh from the constants of crates/.

/// Stages of a CIC converter, from 1.
pub const MOST_STAGES: usize = 8;
/// Neighbours of a nonrecursive decimator or a line.
pub const MOST_NEIGHBOURS: usize = 96;
/// Factor of a CIC converter or a FIR, from 1.
pub const MOST_FACTOR: usize = 4096;
/// Gain bits of a CIC decimator whose sums are scaled.
pub const MOST_GAIN_BITS: u32 = 31;
/// Taps of the line's FIR.
pub const MOST_TAPS: usize = 128;
/// Samples, places or taps of a block.
pub const MOST_BLOCK: usize = 65536;
/// Taps of a half-band stage, from 1.
pub const MOST_HALF_BAND_TAPS: usize = 23;
/// Stages of a half-band cascade.
pub const MOST_DEPTH: usize = 5;
/// Phases of a resampler, at least.
pub const LEAST_PHASES: usize = 2;
/// Phases of a resampler, at most.
pub const MOST_PHASES: usize = 64;
/// Taps of a resampler's phase, from 1.
pub const MOST_PHASE_TAPS: usize = 16;
/// Taps of a resampler's prototype.
pub const MOST_PROTOTYPE: usize = 1024;
/// Step of a resampler in the line, at least: 1/64.
pub const LEAST_STEP: f32 = 0.015625;
/// Step of a resampler in the line, at most.
pub const MOST_STEP: f32 = 64.0;
/// Entries of a tap sheet.
pub const MOST_ENTRIES: usize = 32;
/// Top bit of a tap sheet's entry count: its empty entries come first.
pub const SHEET_MARK: usize = 32768;
/// Calls of a feeding plan.
pub const MOST_CALLS: usize = 4096;
/// Taps of one half of a linear-phase filter, from 1.
pub const MOST_LINEAR_PHASE_TAPS: usize = 23;
/// Places of a halving stage's delay.
pub const HBF_DEC_DELAY: usize = 96;
/// Places of a doubling stage's delay.
pub const HBF_INT_DELAY: usize = 48;
/// Places of a decimating cascade's delays.
pub const HBF_DEC_DELAYS: usize = 480;
/// Places of an interpolating cascade's delays.
pub const HBF_INT_DELAYS: usize = 240;
/// Places of a linear-phase filter's delay.
pub const LINEAR_PHASE_DELAY: usize = 46;
/// Taps of all stages of a cascade.
pub const HBF_TABLE: usize = 45;
/// Taps of all stages of a 98 dB cascade.
pub const HBF_TABLE_98: usize = 29;
