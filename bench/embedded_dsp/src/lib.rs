//! The unchanged Rust of tests/oracle/rust as a crate. What it is warned of stays as it is.
#![allow(warnings, clippy::all)]

#[rustfmt::skip]
#[path = "../../../tests/oracle/rust/pipeline.rs"]
pub mod pipeline;
#[rustfmt::skip]
#[path = "../../../tests/oracle/rust/resampling.rs"]
pub mod resampling;
#[rustfmt::skip]
#[path = "../../../tests/oracle/rust/types.rs"]
pub mod types;
