//! The gauge line and its rate converters for Rust: safe types over the archive that `make` makes. The archive is proved, in crates/gauge_line/src, to do what the
//! comments here say; this crate only lends it places. No allocation, no global state, no dependency.
//!
//! [`Line`] takes cell samples and gives levels; the other types are its parts and their inverses. docs/rust.md is the page for a user.
//!
//! What changes a result without a refusal stands where it is set: the range of samples at [`Settings`], the layout of a prototype at [`PolyphaseResampF32`], the passband of a
//! depth in [`passband`] (only depth 5 of the half-band cascade holds 140 dB up to 0.4 of its output rate). Floats must be rounded to nearest and subnormal numbers kept:
//! [`fp_environment_ok`] says whether they are.
#![no_std]
#![warn(missing_docs)]

mod cic_decimator;
mod cic_interpolator;
mod environment;
mod fir_decimator;
mod hbf_dec;
mod hbf_dec_cascade;
mod hbf_dec_cascade_98;
mod hbf_int;
mod hbf_int_cascade;
mod hbf_stream;
pub mod limits;
mod line;
mod linear_phase_fir;
mod moved;
mod nonrecursive_decimator;
pub mod passband;
mod phase_rows;
mod plan;
mod polyphase_resamp;
mod q15_blocks;
mod raw;
mod refusal;
mod resample_linear;
mod sheet;
mod values;

pub use cic_decimator::CicDecimator;
pub use cic_interpolator::CicInterpolator;
pub use environment::fp_environment_ok;
pub use fir_decimator::FirDecimator;
pub use hbf_dec::HbfDec;
pub use hbf_dec_cascade::HbfDecCascade;
pub use hbf_dec_cascade_98::HbfDecCascade98;
pub use hbf_int::HbfInt;
pub use hbf_int_cascade::HbfIntCascade;
pub use hbf_stream::HbfStream;
pub use line::{Line, Phase, Settings, Step, Thinning, next_piece};
pub use linear_phase_fir::LinearPhaseFir;
pub use moved::Moved;
pub use nonrecursive_decimator::NonrecursiveDecimator;
pub use phase_rows::{prototype_by_phase, prototype_by_tap};
pub use plan::plan;
pub use polyphase_resamp::PolyphaseResampF32;
pub use q15_blocks::{Filtered, polyphase_decimate_q15, polyphase_interpolate_q15};
pub use refusal::Refusal;
pub use resample_linear::{resample_linear_f32, resample_linear_q15};
pub use sheet::Sheet;
pub use values::{
    Cut, cut_q15, hbf_dec_reach, hbf_dec_reach_98, hbf_dec_response_length,
    hbf_int_response_length, hbf_tap_table, hbf_tap_table_98, q15_to_f32,
};

/// The version of the crate and of its archive.
pub const VERSION: &str = env!("CARGO_PKG_VERSION");

// The pages' examples are doc tests too.
#[cfg(doctest)]
#[doc = include_str!("../../../docs/rust.md")]
struct Page;

#[cfg(doctest)]
#[doc = include_str!("../../../docs/linear-phase.md")]
struct LinearPhasePage;
