//! A simulated recording: twelve hours of a tail channel, in whole numbers so that it is the same everywhere.

/// Samples a second.
pub const RATE: usize = 8;
/// Hours of the recording.
pub const HOURS: usize = 12;
/// What the cell shows at no pressure. It alone would bring the sum round in 25 hours.
pub const OFFSET: i64 = 3000;

const SAMPLES: i64 = (HOURS * 3600 * RATE) as i64;

/// The samples.
pub fn recording() -> Vec<i32> {
    (0..SAMPLES).map(|at| sample(at) as i32).collect()
}

// A level that rises for six hours and falls again, waves of seven seconds and a ripple.
fn sample(at: i64) -> i64 {
    OFFSET + 8000 + triangle(at, SAMPLES, 3000) + triangle(at, 56, 900) + triangle(at, 11, 250)
}

// From -height up to height and back in each period.
fn triangle(at: i64, period: i64, height: i64) -> i64 {
    let along = 4 * height * (at % period) / period;
    if along < 2 * height {
        along - height
    } else {
        3 * height - along
    }
}

/// The sample with which the sum of all so far first passes the range of i32, counted from 1.
pub fn first_round(samples: &[i32]) -> Option<usize> {
    let mut sum = 0;
    let passes = |sample: &i32| {
        sum += i64::from(*sample);
        i32::try_from(sum).is_err()
    };
    samples.iter().position(passes).map(|at| at + 1)
}
