//! A gauge line of the Rust's converters, each over the whole list of the one before. The Rust's FIR carries no state, so a line takes its stream as one piece.

use super::resampler::resampler;
use crate::blocks::Converter;
use embedded_dsp::resampling::{
    CicDecimator, HbfDecCascade, PolyphaseResampF32, polyphase_decimate_q15,
};
use embedded_dsp::types::q15;
use gauge_line::Settings;

type Cascade = Box<dyn Converter<Sample = f32, Output = f32>>;

pub struct Line<const N: usize, const P: usize, const T: usize> {
    r: usize,
    cic: CicDecimator<N>,
    taps: Vec<q15>,
    factor: usize,
    cascade: Option<Cascade>,
    resampler: PolyphaseResampF32<P, T>,
    // The lists between the converters, kept so that no run allocates.
    sums: Vec<q15>,
    filtered: Vec<q15>,
    levels: Vec<f32>,
    decimated: Vec<f32>,
}

impl<const N: usize, const P: usize, const T: usize> Line<N, P, T> {
    pub fn open(settings: Settings, taps: Vec<q15>, prototype: &[f32], samples: usize) -> Self {
        Line {
            r: settings.r,
            cic: CicDecimator::new(settings.r),
            taps,
            factor: settings.factor,
            cascade: cascade(settings.depth),
            resampler: resampler(prototype, settings.step),
            sums: vec![q15::from_bits(0); samples],
            filtered: vec![q15::from_bits(0); samples],
            levels: vec![0.0; samples],
            decimated: vec![0.0; samples],
        }
    }

    fn decimate(&mut self, src: &[i32]) -> usize {
        let mut count = 0;
        for &sample in src {
            if let Some(sum) = self.cic.process_sample_scaled(sample) {
                self.sums[count] = cut(sum);
                count += 1;
            }
        }
        count
    }
}

impl<const N: usize, const P: usize, const T: usize> Converter for Line<N, P, T> {
    type Sample = i32;
    type Output = f32;

    fn restart(&mut self) {
        self.cic = CicDecimator::new(self.r);
        if let Some(cascade) = &mut self.cascade {
            cascade.restart();
        }
        self.resampler.reset();
    }

    fn convert(&mut self, src: &[i32], dst: &mut [f32]) -> usize {
        let count = self.decimate(src);
        let mut fixed = &self.sums[..count];
        if !self.taps.is_empty() {
            let count = polyphase_decimate_q15(fixed, &self.taps, self.factor, &mut self.filtered);
            fixed = &self.filtered[..count];
        }
        for (level, value) in self.levels.iter_mut().zip(fixed) {
            *level = f32::from(value.to_bits()) / 32_768.0;
        }
        let mut levels = &self.levels[..fixed.len()];
        if let Some(cascade) = &mut self.cascade {
            let count = cascade.convert(levels, &mut self.decimated);
            levels = &self.decimated[..count];
        }
        self.resampler.process_block(levels, dst)
    }
}

fn cut(sum: i32) -> q15 {
    q15::from_bits(sum.clamp(i32::from(i16::MIN), i32::from(i16::MAX)) as i16)
}

fn cascade(depth: usize) -> Option<Cascade> {
    match depth {
        0 => None,
        1 => Some(Box::new(HbfDecCascade::<1>::new())),
        2 => Some(Box::new(HbfDecCascade::<2>::new())),
        3 => Some(Box::new(HbfDecCascade::<3>::new())),
        4 => Some(Box::new(HbfDecCascade::<4>::new())),
        5 => Some(Box::new(HbfDecCascade::<5>::new())),
        _ => panic!("no cascade of depth {depth}"),
    }
}
