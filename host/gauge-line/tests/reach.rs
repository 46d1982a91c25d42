//! How far an output of a fresh decimating cascade reaches back: samples before and behind the reach change no bit of it, and the first of the reach samples does.

use gauge_line::{HbfDecCascade, HbfDecCascade98, hbf_dec_reach, hbf_dec_reach_98};

const FRAMES: usize = 80;

fn outputs_140(depth: usize, samples: &[f32]) -> Vec<f32> {
    let mut out = vec![0.0; samples.len() >> depth];
    let mut cascade = HbfDecCascade::new(depth).unwrap();
    assert_eq!(cascade.process(samples, &mut out), Ok(out.len()));
    out
}

fn outputs_98(depth: usize, samples: &[f32]) -> Vec<f32> {
    let mut out = vec![0.0; samples.len() >> depth];
    let mut cascade = HbfDecCascade98::new(depth).unwrap();
    assert_eq!(cascade.process(samples, &mut out), Ok(out.len()));
    out
}

// Levels between −1 and 1.
fn levels(count: usize) -> Vec<f32> {
    let mut seed = 1_u32;
    let mut level = || {
        seed = seed.wrapping_mul(1_664_525).wrapping_add(1_013_904_223);
        (seed >> 8) as f32 / 8_388_608.0 - 1.0
    };
    (0..count).map(|_| level()).collect()
}

// The samples with every one outside of so many that end at `last` put to a NaN.
fn within(samples: &[f32], last: usize, reach: usize) -> Vec<f32> {
    let inside = |at: usize| at <= last && last < at + reach;
    let keep = |(at, sample): (usize, &f32)| if inside(at) { *sample } else { f32::NAN };
    samples.iter().enumerate().map(keep).collect()
}

fn check(depth: usize, reach: usize, outputs: fn(usize, &[f32]) -> Vec<f32>) {
    let samples = levels(FRAMES << depth);
    let whole = outputs(depth, &samples);
    for j in [0, 1, 2, 30, 63, FRAMES - 1] {
        let last = j << depth;
        let kept = within(&samples, last, reach);
        let again = outputs(depth, &kept)[j];
        assert_eq!(again.to_bits(), whole[j].to_bits(), "depth {depth}, {j}");
        if let Some(first) = (last + 1).checked_sub(reach) {
            let mut other = samples.clone();
            other[first] = f32::INFINITY;
            let other = outputs(depth, &other)[j];
            assert!(!other.is_finite(), "depth {depth}, {j}");
        }
    }
}

#[test]
fn nothing_outside_of_the_reach_counts() {
    for depth in 1..=5 {
        check(depth, hbf_dec_reach(depth).unwrap(), outputs_140);
        check(depth, hbf_dec_reach_98(depth).unwrap(), outputs_98);
    }
}
