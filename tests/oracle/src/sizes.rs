//! The Rust's constant sizes from numbers: calls of a generic function with the constant that a number equals.

macro_rules! with_size {
    ($size:expr, [$($constant:literal)*], $function:ident $arguments:tt) => {
        match $size {
            $($constant => $function::<$constant> $arguments,)*
            _ => unreachable!("the refusals come first"),
        }
    };
}
pub(crate) use with_size;

/// N of a CIC converter.
macro_rules! with_stages {
    ($stages:expr, $function:ident $arguments:tt) => {
        crate::sizes::with_size!($stages, [1 2 3 4 5 6 7 8], $function $arguments)
    };
}
pub(crate) use with_stages;

/// M of a half-band filter.
macro_rules! with_half_band {
    ($taps:expr, $function:ident $arguments:tt) => {
        crate::sizes::with_size!(
            $taps,
            [1 2 3 4 5 6 7 8 9 10 11 12 13 14 15 16 17 18 19 20 21 22 23],
            $function $arguments
        )
    };
}
pub(crate) use with_half_band;

/// The stages of a half-band cascade.
macro_rules! with_depth {
    ($depth:expr, $function:ident $arguments:tt) => {
        crate::sizes::with_size!($depth, [1 2 3 4 5], $function $arguments)
    };
}
pub(crate) use with_depth;

/// P and T of a resampler in a list: the ends of both and some between.
pub const RESAMPLERS: [(u64, u64); 30] = [
    (2, 1),
    (2, 2),
    (2, 3),
    (2, 16),
    (3, 1),
    (3, 2),
    (3, 4),
    (3, 15),
    (4, 1),
    (4, 2),
    (4, 3),
    (4, 8),
    (5, 1),
    (5, 3),
    (5, 5),
    (7, 2),
    (7, 4),
    (8, 1),
    (8, 4),
    (8, 12),
    (16, 6),
    (31, 3),
    (32, 16),
    (33, 2),
    (63, 1),
    (63, 15),
    (63, 16),
    (64, 1),
    (64, 15),
    (64, 16),
];

/// The first N places of an array.
pub fn front<const N: usize, T: Copy>(places: &[T]) -> [T; N] {
    std::array::from_fn(|i| places[i])
}
