//! `HBF_TAPS` and `HBF_TAPS_98` as the Rust's source prints them, each decimal rounded to the nearest f32 by integers alone.

use embedded_dsp::resampling::{HBF_TAPS, HBF_TAPS_98};

const SOURCE: &str = include_str!("../rust/resampling.rs");

/// The decimals of a table, in the order of the source.
fn decimals(name: &str) -> impl Iterator<Item = &'static str> {
    let start = SOURCE.find(&format!("pub const {name}:")).unwrap();
    let table = &SOURCE[start..];
    let values = &table[table.find(") = (").unwrap()..table.find(");\n").unwrap()];
    values
        .split(|c: char| !(c.is_ascii_digit() || "+-.e".contains(c)))
        .filter(|word| word.contains('.'))
}

/// The nearest f32, ties to even: numerator / 10^places = significand × 2^exponent with 24 bits, by long division.
fn nearest(decimal: &str) -> f32 {
    let (size, sign) = match decimal.strip_prefix('-') {
        Some(size) => (size, 1),
        None => (decimal, 0),
    };
    let (digits, power) = size.split_once('e').unwrap_or((size, "0"));
    let (whole, fraction) = digits.split_once('.').unwrap();
    let numerator: u128 = format!("{whole}{fraction}").parse().unwrap();
    let places = fraction.len() as i32 - power.parse::<i32>().unwrap();
    let denominator = 10u128.pow(places as u32);

    // The exponent at which the quotient has 24 bits.
    let mut exponent = 0;
    while numerator << -exponent < denominator << 23 {
        exponent -= 1;
    }
    let scaled = numerator << -exponent;
    let (quotient, rest) = (scaled / denominator, scaled % denominator);
    let up = 2 * rest > denominator || 2 * rest == denominator && quotient % 2 == 1;
    let significand = quotient as u32 + u32::from(up);

    // A significand of 2^24 carries into the exponent's field.
    f32::from_bits((sign << 31) | ((((exponent + 149) as u32) << 23) + significand))
}

/// A table's decimals, which have to be what the compiler makes of them.
fn nearest_all(name: &str, rust: [&[f32]; 5]) -> Vec<f32> {
    let taps: Vec<f32> = decimals(name).map(nearest).collect();
    assert_eq!(taps, rust.concat(), "the compiler rounds otherwise");
    taps
}

pub fn rounded() -> Vec<f32> {
    let (a, b, c, d, e) = HBF_TAPS;
    nearest_all("HBF_TAPS", [&a.0, &b.0, &c.0, &d.0, &e.0])
}

pub fn rounded_98() -> Vec<f32> {
    let (a, b, c, d, e) = HBF_TAPS_98;
    nearest_all("HBF_TAPS_98", [&a.0, &b.0, &c.0, &d.0, &e.0])
}
