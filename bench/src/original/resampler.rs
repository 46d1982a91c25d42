//! The Rust's f32 resamplers.

use crate::blocks::Converter;
use embedded_dsp::resampling::{PolyphaseResampF32, resample_linear_f32};

pub fn resampler<const P: usize, const T: usize>(
    prototype: &[f32],
    step: f32,
) -> PolyphaseResampF32<P, T> {
    match PolyphaseResampF32::from_taps(prototype, step) {
        Ok(resampler) => resampler,
        Err(_) => panic!("the Rust refuses {P}x{T} step {step}"),
    }
}

impl<const P: usize, const T: usize> Converter for PolyphaseResampF32<P, T> {
    type Sample = f32;
    type Output = f32;

    fn restart(&mut self) {
        self.reset();
    }

    fn convert(&mut self, src: &[f32], dst: &mut [f32]) -> usize {
        self.process_block(src, dst)
    }
}

pub struct LinearF32(pub f32);

impl Converter for LinearF32 {
    type Sample = f32;
    type Output = f32;

    fn restart(&mut self) {}

    fn convert(&mut self, src: &[f32], dst: &mut [f32]) -> usize {
        resample_linear_f32(src, dst, self.0);
        dst.len()
    }
}
