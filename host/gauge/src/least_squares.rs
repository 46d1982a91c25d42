//! The taps of a symmetric FIR that is nearest to what is wanted, by least squares whose weights are raised where it is worst, so that in the end its worst is least (Lawson 1961).

use std::f64::consts::TAU;

// Rounds of raising weights.
const ROUNDS: usize = 30;
// Where so little of what is allowed is missed, it is good enough.
const GOOD: f64 = 0.9;
// Part of the diagonal that is added to it, so that places that nothing looks at stay tame.
const RIDGE: f64 = 1e-10;

/// What a FIR is to do at a frequency.
#[derive(Clone, Copy, Debug)]
pub struct Goal {
    /// The frequency, in cycles a value of its input.
    pub frequency: f64,
    /// What the other sections multiply the wave by.
    pub rest: f64,
    /// What all shall multiply it by.
    pub wanted: f64,
    /// By how much that may be missed.
    pub allowed: f64,
}

/// The taps of a FIR with this many on each side of its middle, which multiplies a steady value by exactly `steady`; and the part of what is allowed by which it misses its worst goal.
pub fn fitted(goals: &[Goal], sides: usize, steady: f64) -> (Vec<f64>, f64) {
    let mut weights = vec![1.0; goals.len()];
    let mut best = (f64::INFINITY, vec![0.0; sides]);
    for _ in 0..ROUNDS {
        let halves = solved(goals, &weights, sides, steady);
        let misses: Vec<f64> = goals.iter().map(|g| missed(g, &halves, steady)).collect();
        let worst = misses.iter().fold(0.0, |one: f64, other| one.max(*other));
        for (weight, miss) in weights.iter_mut().zip(&misses) {
            *weight *= (0.02 * worst + miss) / (1.02 * worst);
        }
        let top = weights.iter().fold(0.0, |one: f64, other| one.max(*other));
        weights.iter_mut().for_each(|weight| *weight /= top);
        if worst < best.0 {
            best = (worst, halves);
        }
        if best.0 < GOOD {
            break;
        }
    }
    (symmetric(&best.1, steady), best.0)
}

// Both sides of each half and the middle, which makes the sum right.
fn symmetric(halves: &[f64], steady: f64) -> Vec<f64> {
    let side = halves.iter().map(|half| half / 2.0);
    let middle = steady - halves.iter().sum::<f64>();
    let left = side.clone().rev();
    left.chain([middle]).chain(side).collect()
}

// By what part of what is allowed a goal is missed. The FIR is steady + sum of halves[i - 1] (cos i w - 1).
fn missed(goal: &Goal, halves: &[f64], steady: f64) -> f64 {
    let cosines = cosines(goal.frequency, halves.len() + 1);
    let sides = halves.iter().zip(&cosines[1..]);
    let fir = steady + sides.map(|(half, cos)| half * (cos - 1.0)).sum::<f64>();
    (goal.rest * fir - goal.wanted).abs() / goal.allowed
}

// cos 0, cos w, cos 2w and so on.
fn cosines(frequency: f64, count: usize) -> Vec<f64> {
    let one = (TAU * frequency).cos();
    let mut all = vec![1.0, one];
    while all.len() < count {
        let last = all.len() - 1;
        all.push(2.0 * one * all[last] - all[last - 1]);
    }
    all
}

// The halves for these weights. A product of cosines is half the cosines of sum and difference, so the matrix follows from 2n + 1 sums over the goals.
fn solved(goals: &[Goal], weights: &[f64], sides: usize, steady: f64) -> Vec<f64> {
    let mut moments = vec![0.0; 2 * sides + 1];
    let mut pulls = vec![0.0; sides + 1];
    for (goal, weight) in goals.iter().zip(weights) {
        let weight = weight / (goal.allowed * goal.allowed);
        let heavy = weight * goal.rest * goal.rest;
        let pull = weight * goal.rest * goal.wanted - heavy * steady;
        let cosines = cosines(goal.frequency, 2 * sides + 1);
        add_scaled(&mut moments, &cosines, heavy);
        add_scaled(&mut pulls, &cosines, pull);
    }
    let entry = |i: usize, j: usize| {
        let both = (moments[i.abs_diff(j)] + moments[i + j]) / 2.0;
        both - moments[i] - moments[j] + moments[0]
    };
    let row = |i: usize| (1..=sides).map(move |j| (i, j));
    let matrix: Vec<Vec<f64>> = (1..=sides)
        .map(|i| row(i).map(|(i, j)| entry(i, j)).collect())
        .collect();
    let right = (1..=sides).map(|i| pulls[i] - pulls[0]).collect();
    by_cholesky(matrix, right)
}

fn add_scaled(sums: &mut [f64], numbers: &[f64], by: f64) {
    for (sum, number) in sums.iter_mut().zip(numbers) {
        *sum += by * number;
    }
}

// The solution of a symmetric positive system.
fn by_cholesky(mut matrix: Vec<Vec<f64>>, mut right: Vec<f64>) -> Vec<f64> {
    let count = right.len();
    let trace: f64 = (0..count).map(|i| matrix[i][i]).sum();
    let ridge = RIDGE * trace / count.max(1) as f64;
    for i in 0..count {
        matrix[i][i] += ridge;
        reduce_row(&mut matrix, i);
    }
    for i in 0..count {
        let done: f64 = (0..i).map(|j| matrix[i][j] * right[j]).sum();
        right[i] = (right[i] - done) / matrix[i][i];
    }
    for i in (0..count).rev() {
        let done: f64 = (i + 1..count).map(|j| matrix[j][i] * right[j]).sum();
        right[i] = (right[i] - done) / matrix[i][i];
    }
    right
}

// One row of the lower triangle whose product with its own transpose is the matrix.
fn reduce_row(matrix: &mut [Vec<f64>], i: usize) {
    for j in 0..=i {
        let done: f64 = (0..j).map(|k| matrix[i][k] * matrix[j][k]).sum();
        let rest = matrix[i][j] - done;
        matrix[i][j] = match j == i {
            true => rest.max(f64::MIN_POSITIVE).sqrt(),
            false => rest / matrix[j][j],
        };
    }
}

/// The taps in 32768ths, rounded so that their sum is the nearest to the exact one and they stay symmetric. None where one is past 16 bits.
pub fn rounded(taps: &[f64]) -> Option<Vec<i16>> {
    let exact: Vec<f64> = taps.iter().map(|tap| 32768.0 * tap).collect();
    if !exact.iter().all(|tap| tap.abs() < 32768.0) {
        return None;
    }
    let mut whole: Vec<i64> = exact.iter().map(|tap| tap.round() as i64).collect();
    let wanted = exact.iter().sum::<f64>().round() as i64;
    let middle = taps.len() / 2;
    let short = wanted - whole.iter().sum::<i64>();
    // What pairs can't make up the middle does.
    whole[middle] += short % 2;
    let mut pairs: Vec<usize> = (0..middle).collect();
    let owed = |at: &usize| (exact[*at] - exact[*at].round()) * short.signum() as f64;
    pairs.sort_by(|one, other| owed(other).total_cmp(&owed(one)));
    for at in pairs.into_iter().take((short / 2).unsigned_abs() as usize) {
        whole[at] += short.signum();
        whole[taps.len() - 1 - at] += short.signum();
    }
    whole
        .into_iter()
        .map(|tap| i16::try_from(tap).ok())
        .collect()
}

#[cfg(test)]
mod tests {
    use super::*;

    #[test]
    fn rounded_taps_keep_their_sum_and_are_symmetric() {
        let taps = [0.1, 0.2, 0.4, 0.2, 0.1].map(|tap| tap + 0.4 / 32768.0);
        let whole = rounded(&taps).unwrap();
        let sum: i64 = whole.iter().map(|tap| i64::from(*tap)).sum();
        assert_eq!(sum, (32768.0 * taps.iter().sum::<f64>()).round() as i64);
        assert!(whole.iter().eq(whole.iter().rev()));
        assert_eq!(rounded(&[1.0]), None);
    }

    // A lowpass: several peaks of both bands are as high as the worst.
    #[test]
    fn a_steady_value_is_exact_and_the_worst_is_shared() {
        let goal = |frequency: f64, wanted: f64| Goal {
            frequency,
            rest: 1.0,
            wanted,
            allowed: 0.02,
        };
        let pass = (0..=20).map(|k| goal(0.005 * f64::from(k), 1.0));
        let stop = (0..=60).map(|k| goal(0.2 + 0.005 * f64::from(k), 0.0));
        let goals: Vec<Goal> = pass.chain(stop).collect();
        let (taps, _) = fitted(&goals, 8, 1.0);
        assert!((taps.iter().sum::<f64>() - 1.0).abs() < 1e-12);
        let halves: Vec<f64> = taps[9..].iter().map(|tap| 2.0 * tap).collect();
        let misses = goals.iter().map(|goal| missed(goal, &halves, 1.0));
        let mut misses: Vec<f64> = misses.collect();
        misses.sort_by(f64::total_cmp);
        let worst = misses[misses.len() - 1];
        assert!(
            worst < 1.1 && misses[misses.len() - 5] > 0.8 * worst,
            "{misses:?}"
        );
    }
}
