//! The tables.

use crate::case::{Case, Settings, Unit};
use crate::cases::line::PIECES;
use crate::cases::linear_phase::LENGTHS;
use crate::cases::{BLOCK, SHORT_BLOCK};
use crate::flat::{Cost, POWERS, costs};
use crate::race::{least_times, timed};

const SIDES: &str = "      ours      Rust ours/Rust";

pub fn converters(cases: &[Case], rounds: usize) {
    println!(
        "1. Converters: ns per sample, the least of {rounds} rounds by turns

A sample is an input of a decimator, an output of an interpolator or resampler; a block is of
such samples, of a resampler's inputs. Outputs of the two sides are equal by bits. Bounds
checks are as each side has them: ours looks at the refusal of every call, the Rust keeps its
own bounds checks.
"
    );
    let long = format!("blocks of {BLOCK}");
    let short = format!("blocks of {SHORT_BLOCK}");
    println!("{:44}{long:>30}{short:>30}{:>30}", "", "blocks of 1");
    println!("{:36}{:8}{SIDES}{SIDES}{SIDES}", "converter", "sample");
    for case in cases {
        print!("{:36}{:8}", case.name, case.unit.name());
        for block in case.blocks {
            print!("{}", raced(case, *block, rounds));
        }
        println!();
    }
}

pub fn lines(cases: &[Case], rounds: usize) {
    let piece = PIECES[0];
    println!(
        "
2. Lines: ns per input sample, the least of {rounds} rounds by turns

Ours is one feed of {piece} samples; the Rust is its converters, each over the whole list of
the one before. Both begin at a fresh opening; outputs are equal by bits.
"
    );
    println!("{:48}{SIDES}", "line");
    for case in cases {
        println!("{:48}{}", case.name, raced(case, piece, rounds));
    }
}

fn raced(case: &Case, block: usize, rounds: usize) -> String {
    let mut sides = case.sides(block);
    let times = least_times(&mut sides, rounds, &case.name);
    let samples = case.unit.samples(&*sides[0]);
    let [ours, rust] = times.map(|time| nanoseconds(time, samples));
    format!("{ours:10.2}{rust:10.2}{:10.2}", ours / rust)
}

pub fn phases(cases: &[Settings], rounds: usize) {
    println!(
        "
4. Straight phase: ns per sample, the least of {rounds} rounds by turns, ours alone, beside wrapped
phase, whose outputs are others
"
    );
    let long = format!("blocks of {BLOCK}");
    let short = format!("blocks of {SHORT_BLOCK}");
    println!("{:44}{long:>30}{short:>30}", "");
    let sides = "  straight   wrapped     ratio";
    println!("{:36}{:8}{sides}{sides}", "converter", "sample");
    for case in cases {
        print!("{:36}{:8}", case.name, case.unit.name());
        for block in case.blocks {
            let mut sides = [(case.first)(*block), (case.second)(*block)];
            let [first, second] = timed(&mut sides, rounds);
            let samples = case.unit.samples(&*sides[0]);
            let [first, second] = [first, second].map(|time| nanoseconds(time, samples));
            print!("{first:10.2}{second:10.2}{:10.2}", first / second);
        }
        println!();
    }
}

pub fn lengths(cases: &[Case], rounds: usize) {
    println!(
        "
6. Linear-phase filters by the length of a block: ours/Rust, the least of {rounds} rounds by turns
"
    );
    print!("{:40}", "filter");
    for length in LENGTHS {
        print!("{length:>6}");
    }
    println!();
    for case in cases {
        print!("{:40}", case.name);
        for length in LENGTHS {
            let [ours, rust] = least_times(&mut case.sides(*length), rounds, &case.name);
            print!("{:6.2}", ours / rust);
        }
        println!();
    }
}

pub fn pieces(cases: &[Case], rounds: usize) {
    let whole = PIECES[0];
    println!(
        "
3. Pieces: ns per input sample of {whole} samples through our line, by the length of a piece,
the least of {rounds} rounds by turns, and the ratio to one piece of {whole}
"
    );
    println!("{:48}{:>36}{:>27}", "", "pieces of", "ratio of pieces of");
    print!("{:48}", "line");
    for piece in PIECES {
        print!("{piece:>9}");
    }
    for piece in &PIECES[1..] {
        print!("{piece:>9}");
    }
    println!();
    for case in cases {
        println!("{:48}{}", case.name, cut(case, rounds));
    }
}

fn cut(case: &Case, rounds: usize) -> String {
    let mut sides = PIECES.map(|piece| (case.ours)(piece));
    let times = least_times(&mut sides, rounds, &case.name);
    let samples = Unit::Input.samples(&*sides[0]);
    let costs = times.map(|time| format!("{:9.2}", nanoseconds(time, samples)));
    let ratios: String = times[1..]
        .iter()
        .map(|time| format!("{:9.2}", time / times[0]))
        .collect();
    costs.concat() + &ratios
}

pub fn flat(rounds: usize) {
    println!(
        "7. Streams of 10^3 to 10^9 samples through our line A, in pieces of {BLOCK}, {rounds} rounds by turns:
ns per input sample, what a tenth and what half of all feeds cost less than, and the least of whole
streams; and their ratios to 10^9
"
    );
    println!("{:10}{:>20}{:>20}{:>20}", "", "tenth", "half", "stream");
    let sides = "        ns     ratio";
    println!("{:10}{sides}{sides}{sides}", "samples");
    let figures: Vec<_> = costs(rounds).into_iter().map(Cost::figures).collect();
    for (power, row) in POWERS.iter().zip(&figures) {
        print!("10^{power:<7}");
        for (cost, longest) in row.iter().zip(figures[POWERS.len() - 1]) {
            print!("{cost:10.2}{:10.2}", cost / longest);
        }
        println!();
    }
}

fn nanoseconds(time: f64, samples: usize) -> f64 {
    time * 1e9 / samples as f64
}
