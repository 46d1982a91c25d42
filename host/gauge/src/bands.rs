//! What is told of a passband and a stopband, in the same words by `design` and by `response`.

use crate::figures::{Passband, Stopband};
use crate::rate::{Unit, short};

/// A frequency in cycles a sample, as it is told.
pub fn frequency(unit: Unit, cycles: f64) -> String {
    match unit {
        Unit::Sample => format!("{} cycles a sample", short(cycles)),
        Unit::Second(rate) => format!("{} Hz", short(cycles * rate)),
    }
}

/// Of a passband that ends here.
pub fn told_passband(unit: Unit, end: f64, passband: &Passband) -> String {
    let end = frequency(unit, end);
    let (least, greatest) = (signed(passband.least), signed(passband.greatest));
    format!("passband up to {end}: {least} to {greatest} dB")
}

/// Of a stopband that begins here.
pub fn told_stopband(unit: Unit, from: f64, stopband: &Stopband) -> String {
    let (from, at) = (frequency(unit, from), frequency(unit, stopband.at));
    let (worst, edge) = (-stopband.greatest, -stopband.edge);
    format!(
        "stopband from {from}: {worst:.1} dB down or more, least at {at}; {edge:.1} dB at its edge"
    )
}

/// Of the images of waves up to here.
pub fn told_images(unit: Unit, to: f64, level: f64) -> String {
    let to = frequency(unit, to);
    format!("images of waves up to {to}: {:.1} dB down or more", -level)
}

// With three digits, and no -0.
fn signed(decibels: f64) -> String {
    let rounded = (decibels * 1000.0).round() / 1000.0 + 0.0;
    format!("{rounded:.3}")
}
