//! The C programs, those of the pages too: compiled as C99, run and run under valgrind, the others also as C++11; each must print what is stored.

use crate::support::page::{examples, indented};
use crate::support::{Link, archive, command, have, printed, read, root, same, scratch};
use std::fs;
use std::path::{Path, PathBuf};

const STRICT: [&str; 9] = [
    "-Wall",
    "-Wextra",
    "-Werror",
    "-pedantic",
    "-Wconversion",
    "-Wshadow",
    "-Iinclude",
    "-O2",
    "-g",
];

// Compiles a program of one file with these options after the strict ones, and says where it is.
fn built(compiler: &str, options: &[&str], source: &Path, to: &Path) -> PathBuf {
    let mut compile = command(compiler);
    compile.args(STRICT).args(options).arg(source);
    // C++ is asked for by -x, which would take the archive for a source too.
    compile.args(["-x", "none"]).arg(archive());
    printed(compile.arg("-lm").arg("-o").arg(to));
    to.to_path_buf()
}

// As C99 the program prints this, and valgrind finds no error and no leak.
fn as_c(source: &Path, prints: &str, to: &Path) {
    let program = built("gcc", &["-std=c99"], source, &to.with_extension("c99"));
    let name = source.display().to_string();
    same(&name, prints, &printed(&mut command(&program)));
    if have("valgrind", "no C program is run under it") {
        let options = [
            "--quiet",
            "--error-exitcode=1",
            "--leak-check=full",
            "--errors-for-leak-kinds=all",
        ];
        same(
            &name,
            prints,
            &printed(command("valgrind").args(options).arg(&program)),
        );
    }
}

fn as_cpp(source: &Path, prints: &str, to: &Path) {
    if have("g++", "no C program is compiled as C++") {
        let options = ["-std=c++11", "-x", "c++"];
        let program = built("g++", &options, source, &to.with_extension("cpp"));
        same(
            &source.display().to_string(),
            prints,
            &printed(&mut command(&program)),
        );
    }
}

// A program of the repository in both languages.
fn in_both(source: &str, prints: &str, name: &str) {
    let to = scratch(name).join("program");
    as_c(Path::new(source), prints, &to);
    as_cpp(Path::new(source), prints, &to);
}

#[test]
fn the_example_prints_its_levels() {
    in_both(
        "examples/c/levels.c",
        &read("examples/c/levels.txt"),
        "c_example",
    );
}

#[test]
fn every_function_of_the_headers_is_called() {
    in_both("tests/host/readings.c", "", "c_readings");
}

// valgrind knows one rounding mode and no flushing, so the program is not run under it.
#[test]
fn another_environment_of_floats_is_noticed() {
    let to = scratch("c_environment");
    let source = Path::new("tests/host/environment.c");
    for optimised in ["-O0", "-O2", "-O3"] {
        let program = built("gcc", &["-std=c99", optimised], source, &to.join(optimised));
        same(optimised, "", &printed(&mut command(&program)));
    }
    as_cpp(source, "", &to.join("program"));
    let others: &[&str] = if cfg!(target_arch = "x86_64") {
        &["-Ofast", "-ffast-math", "-mfpmath=387"]
    } else {
        &[]
    };
    for other in others {
        let program = built("gcc", &["-std=c99", other], source, &to.join(other));
        assert_eq!(
            printed(command(&program).arg("at the start")),
            "0\n",
            "{other}"
        );
    }
}

fn programs_of(page: &str, name: &str) {
    let folder = scratch(name);
    let programs = examples(page, |info| info == "c");
    assert!(!programs.is_empty());
    for (place, program) in programs.iter().enumerate() {
        let source = folder.join(format!("{}.c", place + 1));
        fs::write(&source, &program.text).unwrap();
        as_c(&source, &program.prints, &source);
    }
}

#[test]
fn programs_of_the_page() {
    programs_of("docs/c.md", "c_page");
}

#[test]
fn programs_of_the_linear_phase_page() {
    programs_of("docs/linear-phase.md", "c_linear_phase");
}

// The page's own command, with its first program and files where it looks for them.
#[test]
fn the_page_by_its_own_command() {
    let folder = scratch("c_command");
    let program = &examples("docs/c.md", |info| info == "c")[0];
    fs::create_dir_all(folder.join("target/staticlib")).unwrap();
    fs::copy(archive(), folder.join("target/staticlib/libgauge_line.a")).unwrap();
    let _include = Link::new(root().join("include"), folder.join("include"));
    fs::write(folder.join("program.c"), &program.text).unwrap();
    let line = indented("docs/c.md", |line| line.starts_with("gcc ")) + " && ./program";
    let shown = printed(command("bash").args(["-c", &line]).current_dir(&folder));
    same("docs/c.md by its own command", &program.prints, &shown);
}
