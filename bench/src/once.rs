//! One side of one case, run a fixed number of times: what an instruction counter is set on.

use crate::case::Case;
use crate::options::{Options, SideName};
use std::process::ExitCode;

/// Runs, then prints how many samples one run counts for.
pub fn run<'a>(
    mut cases: impl Iterator<Item = &'a Case>,
    name: &str,
    options: &Options,
) -> ExitCode {
    let Some(case) = cases.find(|case| case.name == name) else {
        eprintln!("no case {name}: --list has their names");
        return ExitCode::from(2);
    };
    let build = match options.side {
        SideName::Ours => &case.ours,
        SideName::Rust => &case.rust,
    };
    let mut side = build(options.block.unwrap_or(case.blocks[0]));
    for _ in 0..options.repeat {
        side.run();
    }
    println!("{} {}", case.unit.samples(&*side), case.unit.name());
    ExitCode::SUCCESS
}
