//! Timing by turns: what else runs on the machine falls on all sides alike, and the least of many rounds leaves it out.

use std::hint::black_box;
use std::time::{Duration, Instant};

/// Places on the stack that runs are timed at.
const PLACES: usize = 16;
/// Bytes that a level of the stack takes up at least. Sixteen of them go through the 4,096 bytes after which addresses clash.
const LEVEL: usize = 208;

/// One side of a race, with its samples and its span.
pub trait Side {
    /// Goes back to a fresh opening. Not timed.
    fn restart(&mut self);
    /// Converts all samples. Timed.
    fn run(&mut self);
    /// How many samples a run takes.
    fn inputs(&self) -> usize;
    /// The bits of what the last run wrote, every NaN the same.
    fn outputs(&self) -> Vec<u32>;
}

/// The least time in seconds that each side's run took. Stops the program where outputs differ: only equal work is raced.
pub fn least_times<const SIDES: usize>(
    sides: &mut [Box<dyn Side>; SIDES],
    rounds: usize,
    name: &str,
) -> [f64; SIDES] {
    check(sides, name);
    timed(sides, rounds)
}

/// The same of sides whose outputs differ by what they are set to.
pub fn timed<const SIDES: usize>(
    sides: &mut [Box<dyn Side>; SIDES],
    rounds: usize,
) -> [f64; SIDES] {
    let mut least = [Duration::MAX; SIDES];
    for round in 0..rounds {
        for (side, least) in sides.iter_mut().zip(&mut least) {
            side.restart();
            let time = time_deeper(round % PLACES, &mut **side);
            *least = time.min(*least);
        }
    }
    least.map(|time| time.as_secs_f64())
}

/// Times a run some levels down the stack. Where a frame comes to lie decides which of its stores and loads clash in the processor: each round has another place, so that no side wins or loses by its first one.
#[inline(never)]
fn time_deeper(levels: usize, side: &mut dyn Side) -> Duration {
    let frame = black_box([0u8; LEVEL]);
    let time = if levels == 0 {
        let start = Instant::now();
        side.run();
        start.elapsed()
    } else {
        time_deeper(levels - 1, side)
    };
    black_box(frame);
    time
}

fn check(sides: &mut [Box<dyn Side>], name: &str) {
    for side in sides.iter_mut() {
        side.restart();
        side.run();
    }
    let first = sides[0].outputs();
    assert!(!first.is_empty(), "{name}: no outputs");
    for side in &sides[1..] {
        assert!(side.outputs() == first, "{name}: the outputs differ");
    }
}
