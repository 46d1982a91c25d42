//! Output must not go to a file that is read.

use crate::fault::Fault;
use std::ffi::OsStr;
use std::fs::{self, File, Metadata};
use std::io;
use std::os::fd::{AsFd, OwnedFd};
use std::os::unix::fs::MetadataExt;

/// A fault where an option's file for output is the file of one of these, by whatever name or link; each comes with what it is.
pub fn refuse_same(option: &str, out: &OsStr, inputs: &[(&str, &OsStr)]) -> Result<(), Fault> {
    let out_file = if out == "-" {
        of_stream(io::stdout())
    } else {
        fs::metadata(out).ok()
    };
    let Some(out_file) = out_file.filter(Metadata::is_file) else {
        return Ok(());
    };
    let same = |(_, input): &&(&str, &OsStr)| {
        let input = if *input == "-" {
            of_stream(io::stdin())
        } else {
            fs::metadata(input).ok()
        };
        input.is_some_and(|input| (input.dev(), input.ino()) == (out_file.dev(), out_file.ino()))
    };
    inputs.iter().find(same).map_or(Ok(()), |(what, input)| {
        let (out, input) = (out.to_string_lossy(), input.to_string_lossy());
        Err(Fault::usage(format!(
            "{option} {out} is the file of {what}, {input}; it stays as it is"
        )))
    })
}

fn of_stream(stream: impl AsFd) -> Option<Metadata> {
    let own: OwnedFd = stream.as_fd().try_clone_to_owned().ok()?;
    File::from(own).metadata().ok()
}
