//! The demo: layout, no warnings, its tests, what it prints, and the picture of the README; gauge, as `make` builds it, makes the same levels of its recording by the command of docs/gauge.md.

use crate::cargo::{cargo, laid_out};
use crate::support::page::indented;
use crate::support::{command, printed, read, root, same, target};

#[test]
fn layout() {
    laid_out("examples/demo");
}

#[test]
fn tests() {
    printed(&mut cargo("test", "examples/demo"));
}

// Each line of what the build says begins with a file that is there.
#[test]
fn prints_and_draws_what_is_stored() {
    for line in printed(&mut command("host/build.sh")).lines() {
        let file = line.split_whitespace().next().expect("a line names a file");
        assert!(root().join(file).exists(), "{line}");
    }
    let shown = printed(&mut command("examples/demo/run.sh"));
    same("the demo", &read("examples/demo/summary.txt"), &shown);
    same(
        "its picture",
        &read("docs/tail.svg"),
        &read(target().join("demo/levels.svg")),
    );
    let line = indented("docs/gauge.md", |line| {
        line.starts_with("target") && line.contains("gauge run ")
    });
    let levels = printed(command("bash").args(["-c", &line]));
    same(
        "gauge run",
        &read(target().join("demo/levels.txt")),
        &levels,
    );
}
