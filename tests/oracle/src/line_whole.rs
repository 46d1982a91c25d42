//! 01, section 6: the outputs of a list of samples, by the Rust's converters, each on the whole list of the one before.

use crate::fir_decimator;
use crate::hbf_stream;
use crate::line_settings::Settings;
use crate::polyphase_resamp;
use crate::sizes::with_stages;
use crate::values::{self, cut};
use embedded_dsp::resampling::CicDecimator;

fn scaled<const N: usize>(r: u64, list: &[i32]) -> Vec<i32> {
    let mut rust = CicDecimator::<N>::new(r as usize);
    list.iter()
        .filter_map(|&sample| rust.process_sample_scaled(sample))
        .collect()
}

impl Settings {
    fn scaled(&self, list: &[i32]) -> Vec<i64> {
        let sums = with_stages!(self.stages, scaled(self.r, list));
        sums.into_iter().map(i64::from).collect()
    }

    /// 02, request 4: "the number of cuts that the definitions make for W, held likewise", at sections 2 and 3.
    pub fn cuts(&self, list: &[i32]) -> u32 {
        let sums = self.scaled(list);
        let held: Vec<i16> = sums.iter().map(|&sum| cut(sum)).collect();
        let cuts = values::cuts(sums);
        let more = fir_decimator::cuts(&self.fir.elements, self.factor, &held);
        u32::try_from(cuts + more).unwrap_or(u32::MAX)
    }

    /// "each section run on the whole list of the section before", up to the resampler.
    pub fn values(&self, list: &[i32]) -> Vec<f32> {
        let held: Vec<i16> = self.scaled(list).into_iter().map(cut).collect();
        let thinned = fir_decimator::outputs(&self.fir.elements, self.factor, &held);
        let floats: Vec<f32> = thinned.iter().map(|&x| f32::from(x) / 32768.0).collect();
        hbf_stream::outputs(self.depth, &floats)
    }

    /// "A list of n values becomes ..": how many values so many samples become before the resampler.
    pub fn value_count(&self, samples: usize) -> usize {
        let sums = samples / self.r as usize;
        let thinned = match self.fir.len() {
            0 => sums,
            taps => sums
                .checked_sub(taps)
                .map_or(0, |past| past / self.factor as usize + 1),
        };
        thinned >> self.depth
    }

    /// The resampler on a whole list, through a span that has a place left: a step of 1/64 makes no more than 65 outputs of a value.
    pub fn resampled(&self, values: &[f32]) -> Vec<f32> {
        if self.phases == 0 {
            return values.to_vec();
        }
        let prototype = &self.prototype.elements;
        let mut rust =
            polyphase_resamp::opened(self.straight, self.phases, self.taps, prototype, self.step);
        let mut outputs = vec![0.0; 65 * values.len() + 1];
        let made = rust.process_block(values, &mut outputs);
        assert!(made < outputs.len());
        outputs.truncate(made);
        outputs
    }

    pub fn outputs(&self, list: &[i32]) -> Vec<f32> {
        self.resampled(&self.values(list))
    }
}
