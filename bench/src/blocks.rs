//! A stream of samples cut into blocks, and a converter run over it: the same on both sides.

use crate::race::Side;
use embedded_dsp::types::q15;
use std::hint::black_box;

/// A rate converter, ours or the original's.
pub trait Converter {
    type Sample;
    type Output: Bits;

    /// Goes back to a fresh opening with the same settings.
    fn restart(&mut self);
    /// Converts a block into the front of dst and says how many outputs it wrote.
    fn convert(&mut self, src: &[Self::Sample], dst: &mut [Self::Output]) -> usize;
}

/// How a stream is cut: each call begins `advance` samples after the one before, is lent `reach` samples and a span of `places`.
#[derive(Clone, Copy)]
pub struct Cut {
    pub calls: usize,
    pub advance: usize,
    pub reach: usize,
    pub places: usize,
}

impl Cut {
    /// Blocks that do not overlap.
    pub fn apart(calls: usize, block: usize, places: usize) -> Self {
        Cut {
            calls,
            advance: block,
            reach: block,
            places,
        }
    }

    fn samples(&self) -> usize {
        (self.calls - 1) * self.advance + self.reach
    }
}

/// A converter with a stream to run over.
struct Blocks<C: Converter> {
    converter: C,
    cut: Cut,
    src: Vec<C::Sample>,
    out: Vec<C::Output>,
    written: usize,
}

/// A side of a race: the converter over the stream that `source` makes.
pub fn side<C: Converter + 'static>(
    converter: C,
    cut: Cut,
    source: impl Fn(usize) -> Vec<C::Sample>,
) -> Box<dyn Side> {
    Box::new(Blocks {
        converter,
        cut,
        src: source(cut.samples()),
        out: vec![C::Output::default(); cut.calls * cut.places],
        written: 0,
    })
}

impl<C: Converter> Side for Blocks<C> {
    fn restart(&mut self) {
        self.converter.restart();
    }

    fn run(&mut self) {
        let Cut {
            calls,
            advance,
            reach,
            places,
        } = self.cut;
        let mut written = 0;
        for call in 0..calls {
            let from = call * advance;
            // The compiler may not learn from one block what the next one holds.
            let src = black_box(&self.src[from..from + reach]);
            let dst = &mut self.out[written..written + places];
            written += self.converter.convert(src, dst);
        }
        self.written = black_box(written);
    }

    fn inputs(&self) -> usize {
        self.cut.calls * self.cut.advance
    }

    fn outputs(&self) -> Vec<u32> {
        let written = &self.out[..self.written];
        written.iter().map(|value| value.bits()).collect()
    }
}

/// A value that is compared by its bits.
pub trait Bits: Copy + Default {
    fn bits(self) -> u32;
}

impl Bits for i32 {
    fn bits(self) -> u32 {
        self as u32
    }
}

impl Bits for i16 {
    fn bits(self) -> u32 {
        self as u32
    }
}

impl Bits for q15 {
    fn bits(self) -> u32 {
        self.to_bits() as u32
    }
}

impl Bits for f32 {
    fn bits(self) -> u32 {
        if self.is_nan() { f32::NAN } else { self }.to_bits()
    }
}
