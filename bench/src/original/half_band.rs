//! The Rust's half-band filters. They answer no count: what they wrote follows from the lengths.

use crate::blocks::Converter;
use embedded_dsp::resampling::{HBF_TAPS_98, HbfDec, HbfDecCascade, HbfInt, HbfIntCascade};

impl<const M: usize> Converter for HbfDec<M> {
    type Sample = f32;
    type Output = f32;

    fn restart(&mut self) {
        self.reset();
    }

    fn convert(&mut self, src: &[f32], dst: &mut [f32]) -> usize {
        self.process(src, dst);
        dst.len().min(src.len() / 2)
    }
}

impl<const M: usize> Converter for HbfInt<M> {
    type Sample = f32;
    type Output = f32;

    fn restart(&mut self) {
        self.reset();
    }

    fn convert(&mut self, src: &[f32], dst: &mut [f32]) -> usize {
        self.process(src, dst);
        2 * src.len().min(dst.len() / 2)
    }
}

impl<const DEPTH: usize> Converter for HbfDecCascade<DEPTH> {
    type Sample = f32;
    type Output = f32;

    fn restart(&mut self) {
        self.reset();
    }

    fn convert(&mut self, src: &[f32], dst: &mut [f32]) -> usize {
        self.process(src, dst);
        dst.len().min(src.len() >> DEPTH)
    }
}

impl<const DEPTH: usize> Converter for HbfIntCascade<DEPTH> {
    type Sample = f32;
    type Output = f32;

    fn restart(&mut self) {
        self.reset();
    }

    fn convert(&mut self, src: &[f32], dst: &mut [f32]) -> usize {
        self.process(src, dst);
        src.len().min(dst.len() >> DEPTH) << DEPTH
    }
}

// Samples that go through all stages before the next ones, as in the Rust's own cascade.
const CHUNK: usize = 64 << 5;

/// The Rust's stages with its 98 dB table, one behind the other: it has no cascade of them.
pub struct Chain98 {
    depth: usize,
    stage0: HbfDec<2>,
    stage1: HbfDec<3>,
    stage2: HbfDec<3>,
    stage3: HbfDec<6>,
    stage4: HbfDec<15>,
    before: [f32; CHUNK],
    behind: [f32; CHUNK],
}

impl Chain98 {
    pub fn new(depth: usize) -> Chain98 {
        Chain98 {
            depth,
            stage0: HbfDec::new(HBF_TAPS_98.4.0),
            stage1: HbfDec::new(HBF_TAPS_98.3.0),
            stage2: HbfDec::new(HBF_TAPS_98.2.0),
            stage3: HbfDec::new(HBF_TAPS_98.1.0),
            stage4: HbfDec::new(HBF_TAPS_98.0.0),
            before: [0.0; CHUNK],
            behind: [0.0; CHUNK],
        }
    }

    // Whole frames, at most a chunk, through the stages.
    fn chunk(&mut self, src: &[f32], dst: &mut [f32]) {
        let mut count = src.len();
        self.before[..count].copy_from_slice(src);
        for k in 0..self.depth {
            let (before, behind) = (&self.before[..count], &mut self.behind[..count / 2]);
            match k {
                0 => self.stage0.process(before, behind),
                1 => self.stage1.process(before, behind),
                2 => self.stage2.process(before, behind),
                3 => self.stage3.process(before, behind),
                _ => self.stage4.process(before, behind),
            }
            count /= 2;
            self.before[..count].copy_from_slice(&self.behind[..count]);
        }
        dst.copy_from_slice(&self.before[..count]);
    }
}

impl Converter for Chain98 {
    type Sample = f32;
    type Output = f32;

    fn restart(&mut self) {
        *self = Chain98::new(self.depth);
    }

    fn convert(&mut self, src: &[f32], dst: &mut [f32]) -> usize {
        let written = dst.len().min(src.len() >> self.depth);
        let src = &src[..written << self.depth];
        let chunks = src
            .chunks(CHUNK)
            .zip(dst[..written].chunks_mut(CHUNK >> self.depth));
        for (src, dst) in chunks {
            self.chunk(src, dst);
        }
        written
    }
}
