//! Races our archive against the unchanged Rust originals, in one process, and prints what a sample costs on each side.

#![forbid(unsafe_code)]

mod blocks;
mod case;
mod cases;
mod flat;
mod once;
mod options;
mod original;
mod ours;
mod race;
mod report;
mod samples;

use options::Options;
use std::process::ExitCode;

const ROUNDS: usize = 30;
/// Of a stream of 10^9 samples one round takes seconds.
const FLAT_ROUNDS: usize = 3;

fn main() -> ExitCode {
    let options = match Options::parse(std::env::args().skip(1)) {
        Ok(options) => options,
        Err(why) => {
            eprintln!("{why}\n{}", options::USAGE);
            return ExitCode::from(2);
        }
    };
    let mut converters = cases::converters();
    let mut lines = cases::line::cases();
    let mut phases = cases::resampler::phases();
    let mut lengths = cases::linear_phase::lengths();
    converters.retain(|case| case.name.contains(&options.only));
    lines.retain(|case| case.name.contains(&options.only));
    phases.retain(|case| case.name.contains(&options.only));
    lengths.retain(|case| case.name.contains(&options.only));

    let rounds = options.rounds.unwrap_or(ROUNDS);
    if options.list {
        for case in converters.iter().chain(&lines) {
            println!("{}", case.name);
        }
    } else if let Some(named) = &options.case {
        let all = converters.iter().chain(&lines).chain(&lengths);
        return once::run(all, named, &options);
    } else if options.flat {
        report::flat(options.rounds.unwrap_or(FLAT_ROUNDS));
    } else {
        report::converters(&converters, rounds);
        report::lines(&lines, rounds);
        report::pieces(&lines, rounds);
        report::phases(&phases, rounds);
        report::lengths(&lengths, rounds);
    }
    ExitCode::SUCCESS
}
