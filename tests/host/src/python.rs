//! The package for Python: its tests and the programs of docs/python.md, with the shared object that python/build.sh links of the archive. Without numpy they are skipped, without scipy those that need it.

use crate::cargo::cargo;
use crate::support::page::{examples, indented};
use crate::support::{Link, archive, command, printed, same, scratch, skipped, target};
use std::fs;
use std::path::PathBuf;
use std::process::Command;
use std::sync::OnceLock;

/// An interpreter that has numpy, and the folder of the package.
struct Python {
    program: &'static str,
    folder: PathBuf,
    has_scipy: bool,
}

impl Python {
    fn command(&self) -> Command {
        let mut command = command(self.program);
        command.args(["-B", "-W", "error"]);
        command.env("PYTHONPATH", self.folder.join("python"));
        command
    }
}

fn imports(program: &str, module: &str) -> bool {
    let import = format!("import {module}");
    let tried = command(program).args(["-c", &import]).output();
    tried.is_ok_and(|done| done.status.success())
}

// The python3 of the PATH may be another than Debian's, for which numpy is installed.
fn found() -> Option<Python> {
    let programs = ["python3", "/usr/bin/python3"];
    let Some(program) = programs.into_iter().find(|one| imports(one, "numpy")) else {
        skipped(
            "python3-numpy",
            "not installed, so the package for Python is not tried",
        );
        return None;
    };
    let has_scipy = imports(program, "scipy.signal");
    if !has_scipy {
        skipped(
            "python3-scipy",
            "not installed, so levels are not compared with its own",
        );
    }
    let folder = scratch("python");
    let mut build = command("python/build.sh");
    build.env("GAUGE_TARGET", &folder);
    printed(build.env("GAUGE_ARCHIVE", archive()));
    Some(Python {
        program,
        folder,
        has_scipy,
    })
}

static FOUND: OnceLock<Option<Python>> = OnceLock::new();

fn python() -> Option<&'static Python> {
    FOUND.get_or_init(found).as_ref()
}

#[test]
fn tests_of_the_package() {
    let Some(python) = python() else { return };
    printed(&mut cargo("build", "host/gauge"));
    let mut tests = python.command();
    tests.env("GAUGE_TOOL", target().join("host/cargo/debug/gauge"));
    printed(tests.args(["-m", "unittest", "discover", "-s", "python/tests"]));
}

// A block `python scipy` needs scipy.
#[test]
fn programs_of_the_page() {
    let Some(python) = python() else { return };
    let programs = examples("docs/python.md", |info| info.starts_with("python"));
    assert!(!programs.is_empty());
    for program in programs {
        if program.info == "python" || python.has_scipy {
            let shown = printed(python.command().args(["-c", &program.text]));
            same(&program.text, &program.prints, &shown);
        }
    }
}

// The page's own command, with its first program where it looks for it.
#[test]
fn the_page_by_its_own_command() {
    let Some(python) = python() else { return };
    let beside = scratch("python_command");
    let program = &examples("docs/python.md", |info| info == "python")[0];
    fs::write(beside.join("program.py"), &program.text).unwrap();
    let _target = Link::new(&python.folder, beside.join("target"));
    let line = indented("docs/python.md", |line| line.contains("python3 "));
    let line = line.replace("python3 ", &format!("{} -B ", python.program));
    let shown = printed(command("bash").args(["-c", &line]).current_dir(&beside));
    same("docs/python.md by its own command", &program.prints, &shown);
}
