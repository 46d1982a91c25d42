//! The fault, on purpose WRONG: a CIC decimator whose integrators hold at the end of their range where they should wrap. It is here to be seen and nowhere else.

use gauge::convert::levels_of;
use gauge::fault::Fault;
use gauge::line_file::LineFile;
use gauge_line::{CicDecimator, Line, Refusal, Settings};

/// A CIC decimator that is wrong: its integrators hold.
pub struct HoldingCic {
    r: usize,
    gain_bits: u32,
    integrators: Vec<i32>,
    combs: Vec<i32>,
    sample_counter: usize,
}

impl HoldingCic {
    /// With the settings of a right one.
    pub fn new(stages: usize, r: usize) -> Result<HoldingCic, Refusal> {
        Ok(HoldingCic {
            r,
            gain_bits: CicDecimator::new(stages, r)?.gain_bits()?,
            integrators: vec![0; stages],
            combs: vec![0; stages],
            sample_counter: 0,
        })
    }

    /// Takes one sample; every r-th makes a scaled sum.
    pub fn process_sample_scaled(&mut self, input: i32) -> Option<i32> {
        let mut value = input;
        for integrator in &mut self.integrators {
            // The fault: `wrapping_add` is right.
            *integrator = integrator.saturating_add(value);
            value = *integrator;
        }
        self.sample_counter = (self.sample_counter + 1) % self.r;
        if self.sample_counter > 0 {
            return None;
        }
        for comb in &mut self.combs {
            let difference = value.wrapping_sub(*comb);
            *comb = value;
            value = difference;
        }
        Some(value >> self.gain_bits)
    }
}

/// The levels of a line with this decimator in front. The parts behind it are the right ones: those of a line whose own decimator hands its samples on.
pub fn holding_levels(file: &LineFile, samples: &[i32]) -> Result<Vec<f32>, Fault> {
    let refused = |refusal| Fault::file("the holding line", refusal);
    let mut cic = HoldingCic::new(file.settings.stages, file.settings.r).map_err(refused)?;
    let behind = Settings {
        stages: 1,
        r: 1,
        ..file.settings
    };
    let mut line = Line::open(behind, &file.taps, &file.prototype).map_err(refused)?;
    let sums: Vec<i32> = samples
        .iter()
        .filter_map(|sample| cic.process_sample_scaled(*sample))
        .collect();
    levels_of(&mut line, &sums)
}

#[cfg(test)]
mod tests {
    use super::*;

    // Until a sum comes round the fault cannot be seen: a short test passes.
    #[test]
    fn a_short_stream_shows_nothing() {
        let mut right = CicDecimator::new(2, 5).unwrap();
        let mut wrong = HoldingCic::new(2, 5).unwrap();
        for at in 0..400 {
            let sample = at % 37 * 11 - 100;
            let sum = right.process_sample_scaled(sample).unwrap();
            assert_eq!(wrong.process_sample_scaled(sample), sum);
        }
    }

    #[test]
    fn a_sum_that_comes_round_shows_it() {
        let mut right = CicDecimator::new(1, 1).unwrap();
        let mut wrong = HoldingCic::new(1, 1).unwrap();
        for (sample, held) in [(i32::MAX, i32::MAX), (100, 0), (100, 0)] {
            assert_eq!(right.process_sample_scaled(sample), Ok(Some(sample)));
            assert_eq!(wrong.process_sample_scaled(sample), Some(held));
        }
    }
}
