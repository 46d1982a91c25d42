//! A scratch directory for one test, and the tool run in it.

use std::ffi::OsStr;
use std::fs;
use std::path::PathBuf;
use std::process::{Command, Output};
use std::thread;

/// A line with every part on.
pub const SETTINGS: &str = "stages = 3\nr = 4\ntaps = smooth.taps\nfactor = 2\ndepth = 2\nphases = 2\nphase_taps = 2\nprototype = 1 0.5 0 0.5\nstep = 0.75\n";

/// A directory that is empty but for a line's settings and taps.
pub struct Scratch(PathBuf);

impl Scratch {
    pub fn new(test: &str) -> Scratch {
        let place = PathBuf::from(env!("CARGO_TARGET_TMPDIR")).join(test);
        if place.exists() {
            fs::remove_dir_all(&place).unwrap();
        }
        fs::create_dir_all(&place).unwrap();
        let scratch = Scratch(place);
        scratch.write("smooth.taps", "8192 8192 # two of four\n8192 8192\n");
        scratch.write("line.settings", SETTINGS);
        scratch
    }

    /// The same, with settings that make each sample a level: `one.settings`.
    pub fn with_one(test: &str) -> Scratch {
        let scratch = Scratch::new(test);
        scratch.write("one.settings", "stages = 1\nr = 1\n");
        scratch
    }

    pub fn place(&self, name: impl AsRef<OsStr>) -> PathBuf {
        self.0.join(name.as_ref())
    }

    pub fn write(&self, name: impl AsRef<OsStr>, bytes: impl AsRef<[u8]>) {
        fs::write(self.place(name), bytes).unwrap();
    }

    pub fn read(&self, name: impl AsRef<OsStr>) -> Vec<u8> {
        fs::read(self.place(name)).unwrap()
    }

    /// The names of all files, sorted.
    pub fn names(&self) -> Vec<String> {
        let entries = fs::read_dir(&self.0).unwrap();
        let name = |entry: fs::DirEntry| entry.file_name().to_string_lossy().into_owned();
        let mut names: Vec<String> = entries.map(|entry| name(entry.unwrap())).collect();
        names.sort();
        names
    }

    /// The tool, to be run here.
    pub fn command(&self) -> Command {
        let mut command = Command::new(env!("CARGO_BIN_EXE_gauge"));
        command.current_dir(&self.0);
        command
    }

    /// Runs the tool with arguments that blanks divide.
    pub fn gauge(&self, arguments: &str) -> Output {
        self.command()
            .args(arguments.split_whitespace())
            .output()
            .unwrap()
    }

    /// Runs a line of shell in which `gauge` is the tool.
    pub fn shell(&self, line: &str) -> Output {
        Command::new("bash")
            .args(["-c", &format!("gauge() {{ \"$GAUGE\" \"$@\"; }}; {line}")])
            .env("GAUGE", env!("CARGO_BIN_EXE_gauge"))
            .current_dir(&self.0)
            .output()
            .unwrap()
    }
}

/// Some tests leave links, and `rt ci` wants none below the top of the repository. What a failed test left stays to be looked at.
impl Drop for Scratch {
    fn drop(&mut self) {
        if !thread::panicking() {
            let _ = fs::remove_dir_all(&self.0);
        }
    }
}

/// What was told on standard error.
pub fn told(output: &Output) -> String {
    String::from_utf8(output.stderr.clone()).unwrap()
}

/// What was printed on standard output.
pub fn printed(output: &Output) -> String {
    String::from_utf8(output.stdout.clone()).unwrap()
}

/// Some hundred samples that use the whole range.
pub fn samples() -> Vec<i32> {
    (0..900i32)
        .map(|at| at.wrapping_mul(1_103_515_245).wrapping_add(12_345) >> (at % 17))
        .collect()
}

/// Samples one a line.
pub fn as_text(samples: &[i32]) -> String {
    samples.iter().map(|sample| format!("{sample}\n")).collect()
}
