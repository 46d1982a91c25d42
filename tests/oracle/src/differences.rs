//! 01, "Differences", written from its text: what the port answers where the Rust is not the reference.

/// Section 7: the two samples that output `i` lies between, and the 65536ths of the way; none past the end.
fn linear_between(samples: &[i16], ratio: i32, i: usize) -> Option<(i64, i64, i64)> {
    let position = i as i64 * i64::from(ratio);
    let index = (position / 65_536) as usize;
    let s0 = samples.get(index)?;
    let s1 = samples.get(index + 1).unwrap_or(s0);
    Some(((*s0).into(), (*s1).into(), position % 65_536))
}

/// "the Q15 linear product overflows i32 in the Rust"
pub fn linear_product_wraps(samples: &[i16], ratio: i32, i: usize) -> bool {
    linear_between(samples, ratio, i)
        .is_some_and(|(s0, s1, frac)| i32::try_from((s1 - s0) * frac).is_err())
}

/// "here it is exact": s0 + floor((s1−s0) × frac / 65536), past the end the last sample.
pub fn linear_q15(samples: &[i16], ratio: i32, i: usize) -> i16 {
    match linear_between(samples, ratio, i) {
        Some((s0, s1, frac)) => (s0 + ((s1 - s0) * frac).div_euclid(65_536)) as i16,
        None => samples[samples.len() - 1],
    }
}

/// "an f32 position of 2^64 or more gives the last sample": the position is i × ratio rounded to f32.
pub fn linear_position_is_far(ratio: f32, i: usize) -> bool {
    i as f32 * ratio >= 18_446_744_073_709_551_616.0
}
