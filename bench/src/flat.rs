//! Streams of 10^3 to 10^9 samples through line A: what a sample costs does not grow with the samples before it.

use crate::cases::BLOCK;
use crate::cases::line::line_a;
use crate::ours::took_all;
use crate::samples::cells;
use std::hint::black_box;
use std::time::{Duration, Instant};

/// The lengths of the streams, in powers of ten.
pub const POWERS: [u32; 7] = [3, 4, 5, 6, 7, 8, 9];
/// Samples of a round at least: short streams are run so often, each through a fresh line.
const ROUND: usize = 100_000_000;
/// From the beginning of a piece to that of the next.
const STRIDE: usize = 977;

/// What a sample of a stream costs, in nanoseconds.
#[derive(Clone)]
pub struct Cost {
    /// By the time of a whole stream, the least of all.
    whole: f64,
    /// Of each feed: what else the machine does falls on some of them.
    feeds: Vec<f64>,
}

impl Cost {
    /// What a tenth of all feeds cost less than, what half of them did, and the least of whole streams.
    pub fn figures(mut self) -> [f64; 3] {
        self.feeds.sort_by(f64::total_cmp);
        let count = self.feeds.len();
        [self.feeds[count / 10], self.feeds[count / 2], self.whole]
    }
}

/// One for each of the lengths, which take turns.
pub fn costs(rounds: usize) -> Vec<Cost> {
    let cells = cells(2 * BLOCK);
    let none = Cost {
        whole: f64::MAX,
        feeds: Vec::new(),
    };
    let mut costs = vec![none; POWERS.len()];
    for _ in 0..rounds {
        for (power, cost) in POWERS.iter().zip(&mut costs) {
            let samples = 10usize.pow(*power);
            for _ in 0..(ROUND / samples).max(1) {
                stream(samples, &cells, cost);
            }
        }
    }
    costs
}

/// Pieces of one short list, so that no stream comes from slower memory than another. Each begins at another place, so that the processor does not learn a short stream by heart.
fn stream(samples: usize, cells: &[i32], cost: &mut Cost) {
    let mut line = line_a();
    let mut span = vec![0.0; BLOCK];
    cost.feeds.reserve(samples / BLOCK + 1);
    let mut left = samples;
    let start = Instant::now();
    while left > 0 {
        let from = cost.feeds.len() * STRIDE % BLOCK;
        let src = black_box(&cells[from..from + left.min(BLOCK)]);
        let start = Instant::now();
        took_all(src, line.feed(src, &mut span));
        cost.feeds.push(each(start.elapsed(), src.len()));
        left -= src.len();
    }
    cost.whole = cost.whole.min(each(start.elapsed(), samples));
}

fn each(time: Duration, samples: usize) -> f64 {
    time.as_nanos() as f64 / samples as f64
}
