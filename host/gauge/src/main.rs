//! `gauge`: does what its arguments ask, or says in one line on standard error why not and ends with status 2. Files that are compared and differ give status 1.
#![forbid(unsafe_code)]

use gauge::fault::{Fault, tell};
use std::env;
use std::ffi::OsString;
use std::process::ExitCode;

fn main() -> ExitCode {
    let arguments: Vec<OsString> = env::args_os().skip(1).collect();
    match gauge::command::perform(&arguments) {
        // Who closes the pipe has read enough.
        Ok(()) | Err(Fault::ReaderGone) => ExitCode::SUCCESS,
        Err(Fault::Differ) => ExitCode::from(1),
        Err(fault) => {
            tell(fault);
            ExitCode::from(2)
        }
    }
}
