//! A feeding plan beside the feeds of a line, its limits, and what a refused one leaves.

use gauge_line::limits::{MOST_BLOCK, MOST_CALLS};
use gauge_line::{Line, Moved, Refusal, Settings, plan};

const SETTINGS: Settings = Settings {
    stages: 2,
    r: 3,
    factor: 2,
    depth: 1,
    phases: 2,
    phase_taps: 1,
    phase: gauge_line::Phase::Wrapped,
    step: 0.75,
    thinning: gauge_line::Thinning::Integrators,
};
const TAPS: [i16; 5] = [1000; 5];
const PROTOTYPE: [f32; 2] = [1.0, 0.0];

// The answer, and the two lists, which are of these lengths and begin as nines.
fn tried(
    pieces: &[u64],
    spans: &[u64],
    results: [usize; 2],
) -> (Result<(), Refusal>, [Vec<u64>; 2]) {
    let [mut taken, mut written] = results.map(|length| vec![9; length]);
    let answer = plan(
        SETTINGS,
        &TAPS,
        &PROTOTYPE,
        pieces,
        spans,
        &mut taken,
        &mut written,
    );
    (answer, [taken, written])
}

// What a freshly opened line takes and writes of samples that begin with this one.
fn fed(first: i32, pieces: &[u64], spans: &[u64]) -> Vec<Moved> {
    let mut line = Line::open(SETTINGS, &TAPS, &PROTOTYPE).unwrap();
    let feeds = pieces.iter().zip(spans).map(|(piece, span)| {
        let samples: Vec<i32> = (0..*piece as i32)
            .map(|i| first.wrapping_mul(i + 1))
            .collect();
        line.feed(&samples, &mut vec![0.0; *span as usize]).unwrap()
    });
    feeds.collect()
}

#[test]
fn counts_are_those_of_any_samples() {
    let pieces: Vec<u64> = (0..200).map(|i| i * i % 97).collect();
    let spans: Vec<u64> = (0..200).map(|i| i * 7 % 5).collect();
    let (answer, [taken, written]) = tried(&pieces, &spans, [200, 200]);
    assert_eq!(answer, Ok(()));
    for first in [0, 1, -40_000, i32::MAX] {
        let moved = fed(first, &pieces, &spans);
        let counts = taken.iter().zip(&written);
        let planned = counts.map(|(taken, written)| Moved {
            taken: *taken as usize,
            written: *written as usize,
        });
        assert_eq!(moved, planned.collect::<Vec<Moved>>());
    }
    assert!(written.iter().sum::<u64>() > 100);
}

#[test]
fn limits_are_taken_and_what_lies_past_them_is_22() {
    let longest = MOST_BLOCK as u64;
    assert_eq!(tried(&[], &[], [0, 0]).0, Ok(()));
    assert_eq!(tried(&[longest], &[longest], [1, 1]).0, Ok(()));
    let calls = vec![1; MOST_CALLS];
    assert_eq!(tried(&calls, &calls, [MOST_CALLS; 2]).0, Ok(()));
    let more = vec![1; MOST_CALLS + 1];
    for (pieces, spans, results) in [
        (&more[..], &more[..], [MOST_CALLS + 1; 2]),
        (&[longest + 1], &[1], [1, 1]),
        (&[1], &[longest + 1], [1, 1]),
        (&[1], &[u64::MAX], [1, 1]),
        (&[1, 1], &[1], [2, 2]),
        (&[1], &[1, 1], [1, 1]),
        (&[1], &[1], [2, 1]),
        (&[1], &[1], [1, 0]),
    ] {
        let (answer, lists) = tried(pieces, spans, results);
        assert_eq!(answer, Err(Refusal::Plan));
        assert_eq!(lists, results.map(|length| vec![9; length]));
    }
}

#[test]
fn the_opening_is_refused_first() {
    let settings = Settings {
        depth: 6,
        ..SETTINGS
    };
    let mut taken = [9];
    let answer = plan(settings, &TAPS, &PROTOTYPE, &[1], &[], &mut taken, &mut []);
    assert_eq!((answer, taken), (Err(Refusal::Depth), [9]));
}
