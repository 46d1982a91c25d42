//! Where output goes: standard output, a device or a pipe as it comes, a file when all is there.

use crate::draft::Draft;
use crate::fault::Fault;
use std::ffi::{OsStr, OsString};
use std::fs::{self, File};
use std::io::{self, BufWriter, Write};

/// Where output goes.
pub struct Target {
    name: OsString,
    out: Out,
}

enum Out {
    Stream(BufWriter<Box<dyn Write>>),
    File(Draft),
}

impl Target {
    /// Opens a file for output; `-` is standard output.
    pub fn create(name: impl AsRef<OsStr>) -> Result<Target, Fault> {
        let name = name.as_ref();
        let (name, out) = if name == "-" {
            let stdout: Box<dyn Write> = Box::new(io::stdout());
            (
                "standard output".as_ref(),
                Ok(Out::Stream(BufWriter::new(stdout))),
            )
        } else {
            (name, Out::to(name))
        };
        let out = out.map_err(|why| Fault::file(name, why))?;
        let name = name.to_os_string();
        Ok(Target { name, out })
    }

    /// Writes bytes behind those written so far.
    pub fn write(&mut self, bytes: &[u8]) -> Result<(), Fault> {
        let written = match &mut self.out {
            Out::Stream(stream) => stream.write_all(bytes),
            Out::File(draft) => draft.write(bytes),
        };
        written.map_err(|why| Fault::written(&self.name, why))
    }

    /// What is written so far is handed to whoever reads it now.
    pub fn pass_on(&mut self) -> Result<(), Fault> {
        match &mut self.out {
            Out::Stream(stream) => stream
                .flush()
                .map_err(|why| Fault::written(&self.name, why)),
            Out::File(_) => Ok(()),
        }
    }

    /// All is written: a file takes its place.
    pub fn finish(self) -> Result<(), Fault> {
        let done = match self.out {
            Out::Stream(mut stream) => stream.flush(),
            Out::File(draft) => draft.settle(),
        };
        done.map_err(|why| Fault::written(&self.name, why))
    }
}

impl Out {
    // A device or a pipe is written as it is.
    fn to(name: &OsStr) -> io::Result<Out> {
        if fs::metadata(name).is_ok_and(|old| !old.is_file()) {
            let device: Box<dyn Write> = Box::new(File::options().write(true).open(name)?);
            return Ok(Out::Stream(BufWriter::new(device)));
        }
        Draft::of(name).map(Out::File)
    }
}
