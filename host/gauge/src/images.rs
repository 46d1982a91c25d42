//! What a resampler makes of a wave: the wave itself, and its images.
//!
//! A level mu behind the newest value weighs value t by w(t, mu), so it is the wave there times G(mu) = sum of w(t, mu) turned back by (t + mu) times the wave's frequency. G repeats with every value:
//! its part that turns m times a value is the image of order m, a wave of m cycles a value more. Order 0 is the wave.

use crate::complex::Complex;
use crate::line_file::LineFile;
use gauge_line::Phase;
use std::f64::consts::TAU;
use std::ops::RangeInclusive;

// A step that is a fraction of at most so many parts, or the f32 nearest to one, makes levels at so many places between values, again and again.
const MOST_PARTS: usize = 512;
// One of so many parts that are a power of 2 does so for ever.
const MOST_EXACT_PARTS: usize = 4096;

/// The images of a resampler.
pub struct Images {
    phases: usize,
    /// Values for each level.
    pub step: f64,
    // The places between values at which levels stand, as mu; none where a step comes everywhere.
    places: Option<Vec<f64>>,
    straight: bool,
    // Of each tap the weights of phases 0 to P, the last as it is read behind phase P - 1.
    rows: Vec<Vec<f64>>,
}

impl Images {
    /// Of the resampler of a settings file, where it is on.
    pub fn of(file: &LineFile) -> Option<Images> {
        let settings = &file.settings;
        let (phases, step) = (settings.phases, f64::from(settings.step));
        if phases == 0 {
            return None;
        }
        let straight = settings.phase == Phase::Straight;
        let tap = |at: usize| file.prototype.get(at).copied().map_or(0.0, f64::from);
        let row = |t: usize| {
            let last = if straight {
                (t + 1) * phases
            } else {
                t * phases
            };
            let places = (t * phases..(t + 1) * phases).chain([last]);
            places.map(tap).collect()
        };
        Some(Images {
            phases,
            step,
            places: places(settings.step),
            straight,
            rows: (0..settings.phase_taps).map(row).collect(),
        })
    }

    /// The taps of a phase.
    pub fn taps(&self) -> usize {
        self.rows.len()
    }

    /// The orders whose images differ, or, where a step comes everywhere, those up to twice the phases: behind them images are weaker.
    pub fn orders(&self) -> RangeInclusive<i64> {
        let most = 2 * self.phases;
        let places = self.places.as_ref();
        let most = places.map_or(most, |places| most.min(places.len() / 2));
        -(most as i64)..=most as i64
    }

    /// How strong the image of this order is, of a wave of so many cycles a value.
    pub fn level(&self, cycles: f64, order: i64) -> f64 {
        let kernel = self.kernel(cycles + order as f64);
        let row = |row: &Vec<f64>| {
            let products = row.iter().zip(&kernel);
            products.fold(Complex::default(), |sum, (tap, by)| sum + by.times(*tap))
        };
        let turn = Complex::turned_back(cycles);
        let rows = self.rows.iter().rev();
        rows.fold(Complex::default(), |sum, taps| sum * turn + row(taps))
            .size()
    }

    // What phases 0 to P of every tap are multiplied by, for a wave of so many cycles a value over all places between two values.
    fn kernel(&self, cycles: f64) -> Vec<Complex> {
        match &self.places {
            Some(places) => self.kernel_at(places, cycles),
            None => self.kernel_everywhere(cycles),
        }
    }

    fn kernel_at(&self, places: &[f64], cycles: f64) -> Vec<Complex> {
        let mut kernel = vec![Complex::default(); self.phases + 1];
        for mu in places {
            let turn = Complex::turned_back(cycles * mu).times(1.0 / places.len() as f64);
            for (phase, share) in self.read((1.0 - mu) * self.phases as f64) {
                kernel[phase] = kernel[phase] + turn.times(share);
            }
        }
        kernel
    }

    // The two phases that are read at q, and their shares (01, section 5; 02, paragraph 5).
    fn read(&self, q: f64) -> [(usize, f64); 2] {
        let (phase, all) = (q as usize, self.phases);
        match (phase == all, self.straight) {
            (true, true) => [(all, 1.0), (all, 0.0)],
            (true, false) => [(0, 1.0 - q), (1, q)],
            _ => [(phase, 1.0 - q.fract()), (phase + 1, q.fract())],
        }
    }

    // Between phase s and the next a weight goes straight from the one to the other, which is integrated.
    fn kernel_everywhere(&self, cycles: f64) -> Vec<Complex> {
        let long = 1.0 / self.phases as f64;
        let (even, rising) = integrals(TAU * cycles * long);
        let falling = even + rising.times(-1.0);
        let mut kernel = vec![Complex::default(); self.phases + 1];
        for phase in 0..self.phases {
            let from = 1.0 - (phase + 1) as f64 * long;
            let turn = Complex::turned_back(cycles * from).times(long);
            kernel[phase] = kernel[phase] + turn * rising;
            kernel[phase + 1] = kernel[phase + 1] + turn * falling;
        }
        kernel
    }
}

// The places between two values at which levels stand, where they come again and again: those of one round, as the resampler's own sums of f32 find them (01, section 5). Some rounds go
// first: only the first level of all stands on a value where a fraction is not exact.
fn places(step: f32) -> Option<Vec<f64>> {
    const FIRST: usize = 4;
    let parts = parts(f64::from(step))?;
    let mut mu = 0.0f32;
    let mut places = Vec::new();
    while places.len() < (FIRST + 1) * parts {
        places.push(f64::from(mu));
        mu += step;
        while mu >= 1.0 {
            mu -= 1.0;
        }
    }
    Some(places.split_off(FIRST * parts))
}

// The least count of parts of which a step is whole, but for what rounding to f32 makes of it.
fn parts(step: f64) -> Option<usize> {
    let off = |parts: usize| (step * parts as f64 - (step * parts as f64).round()).abs();
    let rounding = step * f64::from(f32::EPSILON) / 2.0;
    let near = (1..=MOST_PARTS).find(|parts| off(*parts) <= rounding * *parts as f64);
    let exact = || (1..=MOST_EXACT_PARTS).find(|parts| off(*parts) == 0.0);
    near.or_else(exact)
}

// Over s from 0 to 1 of 1 and of s, turned back by s times an angle.
fn integrals(angle: f64) -> (Complex, Complex) {
    if angle.abs() < 1e-4 {
        let (even, rising) = (-angle / 2.0, -angle / 3.0);
        return (
            Complex { re: 1.0, im: even },
            Complex {
                re: 0.5,
                im: rising,
            },
        );
    }
    let (sin, cos) = angle.sin_cos();
    let even = Complex {
        re: sin / angle,
        im: (cos - 1.0) / angle,
    };
    let square = angle * angle;
    let rising = Complex {
        re: (cos + angle * sin - 1.0) / square,
        im: (angle * cos - sin) / square,
    };
    (even, rising)
}

#[cfg(test)]
mod tests {
    use super::*;

    #[test]
    fn places_come_again_where_a_step_is_a_fraction() {
        assert_eq!(places(0.75), Some(vec![0.0, 0.75, 0.5, 0.25]));
        assert_eq!(places(3.0), Some(vec![0.0]));
        assert_eq!(places(0.7).map(|places| places.len()), Some(10));
        assert_eq!(
            places(1.0 + 1.0 / 4096.0).map(|places| places.len()),
            Some(4096)
        );
        assert_eq!(places(std::f32::consts::FRAC_1_SQRT_2), None);
    }
}
