//! Prints the tracked bindings again, or says with --check where they differ from what would be printed.

use std::path::{Path, PathBuf};
use std::process::ExitCode;

const USAGE: &str = "usage: bindings [--check] [ROOT]";

fn main() -> ExitCode {
    let mut check = false;
    let mut root = Path::new(env!("CARGO_MANIFEST_DIR")).join("../..");
    for argument in std::env::args_os().skip(1) {
        match argument.to_str() {
            Some("--check") => check = true,
            Some(option) if option.starts_with('-') => {
                eprintln!("{USAGE}");
                return ExitCode::from(2);
            }
            _ => root = PathBuf::from(argument),
        }
    }
    let done = if check {
        bindings::check(&root)
    } else {
        bindings::write(&root)
    };
    match done {
        Ok(said) => {
            println!("bindings: {said}");
            ExitCode::SUCCESS
        }
        Err(why) => {
            eprintln!("bindings: {why}");
            ExitCode::FAILURE
        }
    }
}
