//! The gauge line as its fields, and its step: put together from the Rust's converters as 01, section 6 says.

use crate::calls::{Buffers, Counts};
use crate::cic_decimator;
use crate::field::{Field, Fields, Member};
use crate::fir_decimator;
use crate::hbf_stream;
use crate::line_calls::Stepped;
use crate::line_settings::Settings;
use crate::nonrecursive_decimator;
use crate::polyphase_resamp;
use crate::refusals;
use crate::values::{cut, is_cut};

#[derive(Clone)]
pub struct Line {
    pub cic: cic_decimator::State,
    pub fir: fir_decimator::State,
    pub half_band: hbf_stream::State,
    pub resampler: polyphase_resamp::State,
    pub cuts: u32,
    pub thinning: u64,
    pub neighbours: [i32; 96],
}

impl Line {
    /// "A part that is off is opened as zeros, settings too."
    pub fn opened(settings: &Settings) -> Self {
        Line {
            cic: cic_decimator::State::opened(settings.stages, settings.r),
            fir: fir_decimator::State::opened(&settings.fir.elements, settings.factor),
            half_band: hbf_stream::State::opened(settings.depth),
            resampler: match settings.phases {
                0 => polyphase_resamp::State::zeros(),
                phases => polyphase_resamp::State::opened(
                    u64::from(settings.straight != 0),
                    &polyphase_resamp::Settings {
                        phases,
                        taps: settings.taps,
                        step: settings.step,
                        prototype: settings.prototype.clone(),
                    },
                ),
            },
            cuts: 0,
            thinning: u64::from(settings.thinning != 0),
            neighbours: [0; 96],
        }
    }

    /// What a fresh opening of the same line is lent.
    pub fn settings(&self) -> Settings {
        Settings {
            stages: self.cic.stages,
            r: self.cic.r,
            factor: self.fir.factor,
            depth: self.half_band.depth,
            phases: self.resampler.phases,
            taps: self.resampler.taps,
            straight: self.resampler.straight,
            step: self.resampler.step,
            thinning: self.thinning,
            fir: self.fir.own_taps().to_vec().into(),
            prototype: match self.resampler.phases {
                0 => Vec::new().into(),
                _ => self.resampler.own_prototype().to_vec().into(),
            },
        }
    }

    pub fn refusal(&self) -> u32 {
        let Line {
            cic,
            fir,
            half_band,
            resampler,
            thinning,
            ..
        } = self;
        refusals::first([
            refusals::line_cic_state(*thinning, cic.stages, cic.r, cic.sample_counter),
            refusals::line_fir_state(fir.tap_count, fir.factor, fir.wait),
            refusals::line_held_cascade(half_band.depth, &half_band.counts),
            refusals::line_resampler_state(
                resampler.phases,
                resampler.taps,
                resampler.step,
                resampler.mu,
            ),
        ])
    }

    /// "An output is due when the resampler is on and mu < 1."
    fn is_due(&self) -> bool {
        self.resampler.phases != 0 && self.resampler.mu < 1.0
    }

    /// 02, request 4: "a count of cut values .. holding at 2^32−1".
    fn count(&mut self, is_cut: bool) {
        self.cuts = self.cuts.saturating_add(is_cut.into());
    }

    /// 02, request 13: "the line may be opened with either". Counter and place are one number.
    fn scaled(&mut self, sample: i32) -> Option<i32> {
        if self.thinning == 0 {
            return self.cic.scaled(sample);
        }
        let mut state = nonrecursive_decimator::State {
            stages: self.cic.stages,
            r: self.cic.r,
            neighbours: self.neighbours,
            place: self.cic.sample_counter,
        };
        let sum = state.scaled(sample);
        self.neighbours = state.neighbours;
        self.cic.sample_counter = state.place;
        sum
    }

    /// A sample through sections 1 to 4.
    fn value(&mut self, sample: i32) -> Option<f32> {
        let sum = self.scaled(sample)?.into();
        self.count(is_cut(sum));
        let (thinned, is_cut) = self.fir.sample(cut(sum))?;
        self.count(is_cut);
        self.half_band.sample(f32::from(thinned) / 32768.0)
    }

    /// "One step of the line: a full span stops it; else a due output is written; else the next sample is taken through sections 1 to 5 (with the
    /// resampler off, a value that results is written); else it stops."
    pub fn step(&mut self, sample: Option<i32>, has_place: bool) -> Stepped {
        if !has_place {
            return Stepped::zeros();
        }
        if self.is_due() {
            let mut output = [0.0];
            self.resampler.block(&[], &mut output);
            return Stepped::of(0, Some(output[0]));
        }
        let Some(sample) = sample else {
            return Stepped::zeros();
        };
        match self.value(sample) {
            Some(value) if self.resampler.phases != 0 => {
                // With an empty span a push takes the value and makes no output.
                self.resampler.push(value, &mut []);
                Stepped::of(1, None)
            }
            value => Stepped::of(1, value),
        }
    }

    /// "A feed steps until stopped and gives counts taken and written."
    pub fn feed(&mut self, lent: &mut Buffers<i32, f32>) -> Counts {
        let (samples, span) = (&lent.samples.elements, &mut lent.span.elements);
        let (mut taken, mut written) = (0, 0);
        loop {
            let step = self.step(samples.get(taken).copied(), written < span.len());
            if step.counts() == (0, 0) {
                return Counts {
                    taken: taken as u64,
                    written: written as u64,
                };
            }
            if step.written != 0 {
                span[written] = step.value;
            }
            taken += step.taken as usize;
            written += step.written as usize;
        }
    }
}

impl Fields for Line {
    fn fields(&mut self) -> Vec<Field<'_>> {
        let parts = [
            ("cic", self.cic.fields()),
            ("fir", self.fir.fields()),
            ("half_band", self.half_band.fields()),
            ("resampler", self.resampler.fields()),
        ];
        let named = |(part, fields): (_, Vec<_>)| {
            fields.into_iter().map(move |field| Field { part, ..field })
        };
        let own = [
            self.cuts.field().named("cuts"),
            self.thinning.field().named("thinning"),
            self.neighbours.field().named("neighbours"),
        ];
        parts.into_iter().flat_map(named).chain(own).collect()
    }

    fn zeros() -> Self {
        Line {
            cic: Fields::zeros(),
            fir: Fields::zeros(),
            half_band: Fields::zeros(),
            resampler: Fields::zeros(),
            cuts: 0,
            thinning: 0,
            neighbours: [0; 96],
        }
    }
}
