//! The Rust's `PolyphaseResampF32`, which has P and T as constants, for every P and T that 01 allows: one type for all of them.
//! It is a crate of its own, as it is most of what there is to compile.

use embedded_dsp::resampling::PolyphaseResampF32;

pub trait Resampler {
    fn process_block(&mut self, samples: &[f32], span: &mut [f32]) -> usize;
    fn push(&mut self, sample: f32, span: &mut [f32]) -> usize;
    fn reset(&mut self);
    /// The newest samples, and mu.
    fn set_parts(&mut self, delay: &[f32], mu: f32);
    /// The taps, phase by phase, the newest samples, mu and step.
    fn parts(&self) -> (&[f32], &[f32], f32, f32);
}

impl<const P: usize, const T: usize> Resampler for PolyphaseResampF32<P, T> {
    fn process_block(&mut self, samples: &[f32], span: &mut [f32]) -> usize {
        PolyphaseResampF32::process_block(self, samples, span)
    }

    fn push(&mut self, sample: f32, span: &mut [f32]) -> usize {
        PolyphaseResampF32::push(self, sample, span)
    }

    fn reset(&mut self) {
        PolyphaseResampF32::reset(self);
    }

    fn set_parts(&mut self, delay: &[f32], mu: f32) {
        PolyphaseResampF32::set_parts(self, delay, mu);
    }

    fn parts(&self) -> (&[f32], &[f32], f32, f32) {
        let (h, newest, mu, step) = PolyphaseResampF32::parts(self);
        (h.as_flattened(), newest, mu, step)
    }
}

type Opening = fn(&[f32], f32) -> Option<Box<dyn Resampler>>;

fn open<const P: usize, const T: usize>(taps: &[f32], step: f32) -> Option<Box<dyn Resampler>> {
    match PolyphaseResampF32::<P, T>::from_taps(taps, step) {
        Ok(resampler) => Some(Box::new(resampler)),
        Err(_) => None,
    }
}

macro_rules! every_taps {
    ($phases:literal: $($taps:literal)*) => {
        [$(open::<$phases, $taps>),*]
    };
}

macro_rules! every_phases {
    ($($phases:literal)*) => {
        [$(every_taps!($phases: 1 2 3 4 5 6 7 8 9 10 11 12 13 14 15 16)),*]
    };
}

static OPENINGS: [[Opening; 16]; 63] = every_phases!(
    2 3 4 5 6 7 8 9 10 11 12 13 14 15 16 17 18 19 20 21 22 23 24 25 26 27 28 29 30 31 32 33
    34 35 36 37 38 39 40 41 42 43 44 45 46 47 48 49 50 51 52 53 54 55 56 57 58 59 60 61 62 63 64
);

/// P of 2 to 64 and T of 1 to 16; nothing where the Rust refuses the prototype or the step.
pub fn from_taps(
    phases: u64,
    taps: u64,
    prototype: &[f32],
    step: f32,
) -> Option<Box<dyn Resampler>> {
    OPENINGS[phases as usize - 2][taps as usize - 1](prototype, step)
}
