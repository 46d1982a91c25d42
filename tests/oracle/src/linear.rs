//! What both linear resamplers have in common: they differ in the samples and the ratio.

use crate::calls::{Free, Written};
use crate::element::Element;
use crate::field::fields;
use crate::lent::{Lent, Slice};
use crate::refusals;
use crate::rng::Rng;
use crate::samples;
use crate::settings;

pub type Block<T, R> = Free<Buffers<T, R>, Written>;

fields! {
    /// What a call is lent.
    pub struct Buffers<T: Element, R: Element> {
        ratio: R,
        samples: Slice<T>,
        span: Slice<T>,
    }
}

impl<T: Element, R: Element> Buffers<T, R> {
    fn of(ratio: R, samples: Lent, span: Lent) -> Self {
        Buffers {
            ratio,
            samples: samples.into(),
            span: Slice::span(span),
        }
    }

    pub fn refusal(&self, is_good: fn(R) -> bool) -> u32 {
        refusals::linear(self.samples.len(), self.span.len(), is_good(self.ratio))
    }
}

impl<T: Element, R: Element> Block<T, R> {
    /// The whole span is written.
    pub fn fill(&mut self, resampled: fn(&[T], &mut [T], R)) {
        let Buffers {
            ratio,
            samples,
            span,
        } = &mut self.lent;
        resampled(&samples.elements, &mut span.elements, *ratio);
        self.answer.written = span.len() as u64;
    }
}

/// Draws so many samples.
pub type List = fn(&mut Rng, u64) -> Lent;

/// Positions that stay inside, end at the last sample or go past it: `inside` says how many of them are inside so many samples.
pub fn some_buffers<T: Element, R: Element>(
    rng: &mut Rng,
    ratio: R,
    inside: impl Fn(u64) -> u64,
    list: List,
) -> Buffers<T, R> {
    let length = match rng.below(32) {
        0 => rng.within(41, 600),
        1..=8 => rng.within(1, 3),
        _ => rng.within(1, 40),
    };
    let places = match rng.below(8) {
        0 => rng.below(2),
        1..=3 => inside(length).min(100) + rng.below(4),
        _ => rng.below(60),
    };
    let mut input = list(rng, length);
    let mut span = samples::span(rng, places);
    settings::spoil_block(rng, &mut input, &mut span);
    Buffers::of(ratio, input, span)
}

/// At 01's limits and past them: the length comes before the ratio.
pub fn longest_buffers<T: Element, R: Element>(
    rng: &mut Rng,
    ratio: fn(&mut Rng) -> R,
    list: List,
) -> Buffers<T, R> {
    let (length, few) = (settings::length_around(rng), rng.within(1, 40));
    let places = match rng.below(64) {
        0 => settings::length_around(rng),
        _ => few,
    };
    let ratio = ratio(rng);
    let input = list(rng, length);
    Buffers::of(ratio, input, samples::span(rng, places))
}

/// As many samples and places as 01 allows: samples that all differ, and a span of zeros.
pub fn most_buffers<T: Element, R: Element>(ratio: R, pattern: u32, stride: u32) -> Buffers<T, R> {
    let samples = Lent::pattern(settings::MOST, pattern, stride);
    Buffers::of(ratio, samples, Lent::pattern(settings::MOST, 0, 0))
}

/// As long as 01 allows, and of any samples.
pub fn long_buffers<T: Element, R: Element>(rng: &mut Rng, ratio: R, list: List) -> Buffers<T, R> {
    let (length, places) = settings::long_block(rng, 1, 1);
    let input = list(rng, length);
    Buffers::of(ratio, input, samples::span(rng, places))
}
