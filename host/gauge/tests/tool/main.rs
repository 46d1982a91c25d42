//! The tool as a fitter runs it.

mod compare;
mod design;
mod drawing;
mod faults;
mod formats;
mod help;
mod layout;
mod parking;
mod phases;
mod pieces;
mod plan;
mod random;
mod range;
mod response;
mod scratch;
mod sheets;
mod summary;
mod targets;
mod tones;
