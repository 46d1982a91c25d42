//! The six gauge lines: F is A with sums of neighbours.

use crate::blocks::{Cut, side};
use crate::case::{Case, Unit};
use crate::original;
use crate::ours::{self, took_all};
use crate::race::Side;
use crate::samples::{cells, prototype, taps, to_q15};
use gauge_line::{Line, Refusal, Settings, Thinning};

/// The lengths of pieces, the whole stream first.
pub const PIECES: [usize; 4] = [65_536, 4_096, 64, 1];

pub fn cases() -> Vec<Case> {
    vec![
        case::<3, 32, 8>('A', 16, 32, 2, 2, 0.9),
        case::<3, 32, 8>('B', 1, 32, 2, 2, 0.9),
        case::<1, 32, 8>('C', 1, 0, 0, 0, 0.9),
        case::<3, 64, 16>('D', 4, 64, 4, 5, 0.9),
        case::<8, 64, 16>('E', 8, 64, 1, 1, 0.5),
        thinned(),
    ]
}

fn thinned() -> Case {
    let settings = settings::<3, 32, 8>(16, 2, 2, 0.9);
    let settings = Settings {
        thinning: Thinning::Neighbours,
        ..settings
    };
    Case {
        name: "F: A with sums of neighbours".to_string(),
        ..raced::<3, 32, 8>(settings, 32)
    }
}

fn settings<const N: usize, const P: usize, const T: usize>(
    r: usize,
    factor: usize,
    depth: usize,
    step: f32,
) -> Settings {
    Settings {
        stages: N,
        r,
        factor,
        depth,
        phases: P,
        phase_taps: T,
        step,
        ..Settings::default()
    }
}

/// A line of N stages and a resampler of P phases and T taps each.
fn case<const N: usize, const P: usize, const T: usize>(
    letter: char,
    r: usize,
    tap_count: usize,
    factor: usize,
    depth: usize,
    step: f32,
) -> Case {
    let fir = match tap_count {
        0 => "no FIR".to_string(),
        _ => format!("T={tap_count} D={factor}"),
    };
    Case {
        name: format!("{letter}: N={N} r={r} {fir} depth {depth} {P}x{T} step {step}"),
        ..raced::<N, P, T>(settings::<N, P, T>(r, factor, depth, step), tap_count)
    }
}

fn raced<const N: usize, const P: usize, const T: usize>(
    settings: Settings,
    tap_count: usize,
) -> Case {
    Case {
        name: String::new(),
        unit: Unit::Input,
        blocks: &PIECES[..1],
        ours: Box::new(move |piece| ours(settings, tap_count, piece)),
        rust: Box::new(move |piece| rust::<N, P, T>(settings, tap_count, piece)),
    }
}

fn cut(settings: Settings, piece: usize) -> Cut {
    // What a resampler makes of a piece whose every sample reaches it, and one output more for the rounding of mu.
    let places = (piece as f32 / settings.step) as usize + 2;
    Cut::apart(PIECES[0] / piece, piece, places)
}

/// Line A, freshly opened.
pub fn line_a() -> Line {
    let opened = opened(settings::<3, 32, 8>(16, 2, 2, 0.9), 32);
    opened.expect("the settings are not refused")
}

fn opened(settings: Settings, tap_count: usize) -> Result<Line, Refusal> {
    let prototype = prototype(settings.phases * settings.phase_taps);
    Line::open(settings, &taps(tap_count), &prototype)
}

fn ours(settings: Settings, tap_count: usize, piece: usize) -> Box<dyn Side> {
    let opened = opened(settings, tap_count);
    let line = ours::ours(opened, |line, src, dst| took_all(src, line.feed(src, dst)));
    side(line, cut(settings, piece), cells)
}

fn rust<const N: usize, const P: usize, const T: usize>(
    settings: Settings,
    tap_count: usize,
    piece: usize,
) -> Box<dyn Side> {
    let line = original::Line::<N, P, T>::open(
        settings,
        to_q15(taps(tap_count)),
        &prototype(P * T),
        piece,
    );
    side(line, cut(settings, piece), cells)
}
