//! The Rust's Q15 blocks.

use crate::blocks::Converter;
use embedded_dsp::resampling::{
    polyphase_decimate_q15, polyphase_interpolate_q15, resample_linear_q15,
};
use embedded_dsp::types::q15;

pub struct PolyphaseDecimate {
    taps: Vec<q15>,
    factor: usize,
}

impl PolyphaseDecimate {
    pub fn new(taps: Vec<q15>, factor: usize) -> Self {
        PolyphaseDecimate { taps, factor }
    }
}

impl Converter for PolyphaseDecimate {
    type Sample = q15;
    type Output = q15;

    fn restart(&mut self) {}

    fn convert(&mut self, src: &[q15], dst: &mut [q15]) -> usize {
        polyphase_decimate_q15(src, &self.taps, self.factor, dst)
    }
}

pub struct PolyphaseInterpolate {
    taps: Vec<q15>,
    factor: usize,
}

impl PolyphaseInterpolate {
    pub fn new(taps: Vec<q15>, factor: usize) -> Self {
        PolyphaseInterpolate { taps, factor }
    }
}

impl Converter for PolyphaseInterpolate {
    type Sample = q15;
    type Output = q15;

    fn restart(&mut self) {}

    fn convert(&mut self, src: &[q15], dst: &mut [q15]) -> usize {
        polyphase_interpolate_q15(src, &self.taps, self.factor, dst)
    }
}

/// Its ratio is Q16.
pub struct LinearQ15(pub i32);

impl Converter for LinearQ15 {
    type Sample = q15;
    type Output = q15;

    fn restart(&mut self) {}

    fn convert(&mut self, src: &[q15], dst: &mut [q15]) -> usize {
        resample_linear_q15(src, dst, self.0);
        dst.len()
    }
}
