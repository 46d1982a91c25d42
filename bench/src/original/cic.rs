//! The Rust's CIC converters, sample by sample into a span.

use crate::blocks::Converter;
use embedded_dsp::resampling::{CicDecimator, CicInterpolator};

pub struct CicDecimatorLoop<const N: usize> {
    r: usize,
    decimator: CicDecimator<N>,
}

impl<const N: usize> CicDecimatorLoop<N> {
    pub fn new(r: usize) -> Self {
        CicDecimatorLoop {
            r,
            decimator: CicDecimator::new(r),
        }
    }
}

impl<const N: usize> Converter for CicDecimatorLoop<N> {
    type Sample = i32;
    type Output = i32;

    fn restart(&mut self) {
        self.decimator = CicDecimator::new(self.r);
    }

    fn convert(&mut self, src: &[i32], dst: &mut [i32]) -> usize {
        let mut written = 0;
        for &sample in src {
            if let Some(sum) = self.decimator.process_sample(sample) {
                dst[written] = sum;
                written += 1;
            }
        }
        written
    }
}

pub struct CicInterpolatorLoop<const N: usize> {
    r: usize,
    interpolator: CicInterpolator<N>,
}

impl<const N: usize> CicInterpolatorLoop<N> {
    pub fn new(r: usize) -> Self {
        CicInterpolatorLoop {
            r,
            interpolator: CicInterpolator::new(r),
        }
    }
}

impl<const N: usize> Converter for CicInterpolatorLoop<N> {
    type Sample = i32;
    type Output = i32;

    fn restart(&mut self) {
        self.interpolator = CicInterpolator::new(self.r);
    }

    fn convert(&mut self, src: &[i32], dst: &mut [i32]) -> usize {
        for (&sample, outputs) in src.iter().zip(dst.chunks_exact_mut(self.r)) {
            self.interpolator.process_sample(sample, outputs);
        }
        src.len() * self.r
    }
}
