//! A filter design laid as gauge_resampler.h and `PolyphaseResampF32` say: outputs lie where they should.

use gauge_line::PolyphaseResampF32;
use std::f64::consts::PI;

const PHASES: usize = 64;
const TAPS: usize = 16;
/// Cycles of the sine for each input sample.
const FREQUENCY: f64 = 0.05;

// A sinc under Hann's window, as design programs give it: for PHASES times the input rate, TAPS input samples long, greatest in the middle.
fn design() -> Vec<f64> {
    let length = (PHASES * TAPS) as f64;
    let at = |place: usize| {
        let x = (place as f64 - length / 2.0) / PHASES as f64;
        let sinc = if x == 0.0 {
            1.0
        } else {
            (PI * x).sin() / (PI * x)
        };
        sinc * (0.5 - 0.5 * (2.0 * PI * place as f64 / length).cos())
    };
    (0..PHASES * TAPS).map(at).collect()
}

// By the formula: h[(t + 1) × phases − p] at t × phases + p, 0 where h has no such place.
fn laid(h: &[f64]) -> Vec<f32> {
    let at = |place: usize| {
        let (t, p) = (place / PHASES, place % PHASES);
        h.get((t + 1) * PHASES - p).copied().unwrap_or(0.0) as f32
    };
    (0..h.len()).map(at).collect()
}

// How far a resampled sine lies above what is wrong with it, in dB. The filter holds it back by half its length.
fn ratio(prototype: &[f32], step: f32) -> f64 {
    let mut resampler = PolyphaseResampF32::from_taps(PHASES, TAPS, prototype, step).unwrap();
    let sine = |time: f64| (2.0 * PI * FREQUENCY * time).sin();
    let samples: Vec<f32> = (0..2000).map(|n| sine(n as f64) as f32).collect();
    let mut out = vec![0.0; 1500];
    assert_eq!(
        resampler.process_block(&samples, &mut out).unwrap().written,
        out.len()
    );
    let (mut right, mut wrong) = (0.0, 0.0);
    for (k, level) in out.iter().enumerate().skip(2 * TAPS) {
        let wanted = sine(k as f64 * f64::from(step) - TAPS as f64 / 2.0);
        right += wanted * wanted;
        wrong += (f64::from(*level) - wanted).powi(2);
    }
    10.0 * f64::log10(right / wrong)
}

// At 0.9375 every 16th output is at mu = 0, where phases wrap.
#[test]
fn a_design_is_laid_with_its_rows_reversed() {
    let h = design();
    let natural: Vec<f32> = h.iter().map(|tap| *tap as f32).collect();
    for (step, least) in [(0.7, 70.0), (0.9, 70.0), (1.3, 70.0), (0.9375, 35.0)] {
        let (reversed, plain) = (ratio(&laid(&h), step), ratio(&natural, step));
        assert!(reversed > least, "step {step}: {reversed} dB");
        assert!(plain < 20.0, "step {step}: {plain} dB in its own order");
    }
}
