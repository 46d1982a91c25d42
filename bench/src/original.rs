//! The unchanged Rust's converters behind one trait. Where the Rust has no block form, its calls are looped over here.

mod cic;
mod half_band;
mod line;
mod linear_phase;
mod q15;
mod resampler;

pub use cic::{CicDecimatorLoop, CicInterpolatorLoop};
pub use half_band::Chain98;
pub use line::Line;
pub use linear_phase::{Filter, PHASE_STATE};
pub use q15::{LinearQ15, PolyphaseDecimate, PolyphaseInterpolate};
pub use resampler::{LinearF32, resampler};
