//! The commands by name.

use crate::compare::compare;
use crate::design_command::design;
use crate::explain::explain;
use crate::fault::{Fault, front};
use crate::inspect::inspect;
use crate::nearest::did_you_mean;
use crate::phases_command::phases;
use crate::plan::plan;
use crate::plot::plot;
use crate::response_command::response;
use crate::run::run;
use crate::sheet_command::sheet;
use crate::target::Target;
use std::ffi::OsString;

const HELP: &str = include_str!("help.txt");
const VERSION: &str = concat!("gauge ", env!("CARGO_PKG_VERSION"), "\n");
const COMMANDS: [&str; 12] = [
    "run", "explain", "design", "response", "plan", "plot", "sheet", "phases", "inspect",
    "compare", "help", "version",
];

/// Does what the arguments ask for.
pub fn perform(arguments: &[OsString]) -> Result<(), Fault> {
    let has = |long: &str, short: &str| arguments.iter().any(|a| a == long || a == short);
    if has("--help", "-h") {
        return print(HELP);
    }
    if has("--version", "-V") {
        return print(VERSION);
    }
    let (command, rest) = arguments
        .split_first()
        .ok_or_else(|| Fault::usage("no command"))?;
    let command = command.to_string_lossy();
    match &*command {
        "run" => run(rest),
        "explain" => explain(rest),
        "design" => design(rest),
        "response" => response(rest),
        "plan" => plan(rest),
        "plot" => plot(rest),
        "sheet" => sheet(rest),
        "phases" => phases(rest),
        "inspect" => inspect(rest),
        "compare" => compare(rest),
        "help" => print(HELP),
        "version" => print(VERSION),
        _ => {
            let hint = did_you_mean(&command, &COMMANDS);
            let command = front(&command);
            Err(Fault::usage(format!("no command {command}{hint}")))
        }
    }
}

fn print(text: &str) -> Result<(), Fault> {
    let mut out = Target::create("-")?;
    out.write(text.as_bytes())?;
    out.finish()
}
