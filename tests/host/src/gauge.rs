//! The fitter's tool: layout, no warnings, its tests, and the examples of its pages, each of which must print what stands behind it.

use crate::cargo::{cargo, laid_out};
use crate::support::page::{blocks, examples};
use crate::support::{command, printed, read, same, scratch, shown, target};
use std::env;
use std::fs;
use std::path::Path;

#[test]
fn layout() {
    laid_out("host/gauge");
}

#[test]
fn tests() {
    printed(&mut cargo("test", "host/gauge"));
    printed(cargo("doc", "host/gauge").args(["--no-deps", "--lib"]));
}

#[test]
fn examples_of_the_page() {
    printed(&mut cargo("build", "host/gauge"));
    for (page, folder) in [
        ("docs/gauge.md", "gauge"),
        ("docs/design.md", "design"),
        ("docs/parking.md", "parking"),
        ("docs/sheets.md", "sheets"),
    ] {
        runs(page, &scratch(folder));
    }
    // The page shows the drawing that its example makes.
    let drawn = read(target().join("host/design/response.svg"));
    same("response.svg", &read("docs/response.svg"), &drawn);
}

fn runs(page: &str, folder: &Path) {
    for block in blocks(page) {
        if let Some(name) = block.info.strip_prefix("file ") {
            fs::write(folder.join(name), block.text).unwrap();
        }
    }
    let tools = target().join("host/cargo/debug");
    let path = env::var_os("PATH").unwrap_or_default();
    let path = env::join_paths([tools].into_iter().chain(env::split_paths(&path))).unwrap();
    let on_page = examples(page, |info| info == "sh");
    assert!(!on_page.is_empty());
    for example in on_page {
        // Some of them show a refusal: what is printed counts, not the status.
        let script = format!("exec 2>&1\n{}", example.text);
        let mut run = command("bash");
        run.args(["-c", &script])
            .current_dir(folder)
            .env("PATH", &path);
        same(&example.text, &example.prints, &shown(&mut run));
    }
}
