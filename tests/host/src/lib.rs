//! What C, Rust and Python see of the archive, the fitter's tool, the demo and the pages, checked. `tests/host/run.sh` runs all of it, `tests/host/run.sh pages` the module of that name.
//! GAUGE_ARCHIVE names the archive. A module for each thing that is checked; `support` has what they share.
#![cfg(test)]

mod support;

mod c;
mod cargo;
mod declarations;
mod demo;
mod gauge;
mod pages;
mod python;
mod symbols;
mod targets;
