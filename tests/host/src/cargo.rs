//! The Rust crates: layout, no warnings, tests and doc tests; the example of gauge-line, which must print what the C one does, and the program of docs/rust.md in a crate beside the repository.

use crate::support::page::blocks;
use crate::support::{Link, command, printed, read, root, same, scratch, target};
use std::fs;
use std::process::Command;

/// cargo on the crate in a folder of the repository: warnings are errors, all crates share a target folder.
pub fn cargo(subcommand: &str, folder: &str) -> Command {
    let mut cargo = command("cargo");
    let manifest = root().join(folder).join("Cargo.toml");
    cargo
        .args([subcommand, "--offline", "--quiet", "--manifest-path"])
        .arg(manifest);
    cargo
        .env("CARGO_TARGET_DIR", target().join("host/cargo"))
        .env("RUSTFLAGS", "-D warnings")
        .env("RUSTDOCFLAGS", "-D warnings");
    cargo
}

/// The crate is laid out as rustfmt does.
pub fn laid_out(folder: &str) {
    let manifest = root().join(folder).join("Cargo.toml");
    printed(
        command("cargo")
            .args(["fmt", "--check", "--manifest-path"])
            .arg(manifest),
    );
}

#[test]
fn layout() {
    for folder in ["host/gauge-line", "host/bindings", "tests/host", "bench"] {
        laid_out(folder);
    }
}

#[test]
fn tests_and_doc_tests() {
    printed(&mut cargo("test", "host/gauge-line"));
    printed(cargo("doc", "host/gauge-line").arg("--no-deps"));
}

#[test]
fn the_benchmark_compiles() {
    printed(&mut cargo("check", "bench"));
}

#[test]
fn the_example_prints_what_the_c_one_does() {
    let shown = printed(cargo("run", "host/gauge-line").args(["--example", "levels"]));
    same("levels.rs", &read("examples/c/levels.txt"), &shown);
}

// With the dependency and the first program of docs/rust.md.
#[test]
fn a_crate_beside_the_repository() {
    let beside = scratch("beside");
    fs::create_dir_all(beside.join("mine/src")).unwrap();
    let _repository = Link::new(root(), beside.join("rawikloeng"));
    let page = blocks("docs/rust.md");
    let of = |info: &'static str| page.iter().filter(move |block| block.info == info);
    let dependency: String = of("toml").map(|block| block.text.as_str()).collect();
    let program = &of("rust").next().expect("the page has a program").text;
    let manifest = format!("[package]\nname = \"mine\"\nedition = \"2024\"\n\n{dependency}");
    fs::write(beside.join("mine/Cargo.toml"), manifest).unwrap();
    fs::write(beside.join("mine/src/main.rs"), program).unwrap();
    let mine = beside.join("mine");
    printed(&mut cargo("run", &mine.to_string_lossy()));
}
