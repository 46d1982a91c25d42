//! Links the archive of the machine that is built for: the one that GAUGE_ARCHIVE names, else the one that make leaves in
//! this repository, or in the folder GAUGE_TARGET. Relative names begin at the top of the repository and an empty one
//! counts as not set, as in every script (host/common.sh).

use std::env;
use std::path::{Path, PathBuf};
use std::process::exit;

fn stop(why: String) -> ! {
    eprintln!("gauge-line: {why}");
    exit(1)
}

fn named(variable: &str) -> Option<PathBuf> {
    println!("cargo::rerun-if-env-changed={variable}");
    env::var_os(variable)
        .filter(|name| !name.is_empty())
        .map(PathBuf::from)
}

/// The archive that make leaves for a machine, and what to run where it is not there.
fn made(machine: &str) -> (PathBuf, &'static str) {
    let (file, how) = match machine {
        "x86_64-unknown-linux-gnu" | "x86_64-unknown-linux-musl" => (
            "staticlib/libgauge_line.a",
            "run `make` at the top of the repository, or name an archive by GAUGE_ARCHIVE",
        ),
        "thumbv7em-none-eabihf" => (
            "firmware/libgauge_line.a",
            "run `make firmware` at the top of the repository, or name an archive by GAUGE_ARCHIVE",
        ),
        _ => stop(format!(
            "make has no archive for {machine}: name one by GAUGE_ARCHIVE (targets/README.md says how one is made)"
        )),
    };
    let target = named("GAUGE_TARGET").unwrap_or_else(|| "target".into());
    (target.join(file), how)
}

fn main() {
    let crate_folder = env::var_os("CARGO_MANIFEST_DIR").expect("cargo names the crate's folder");
    let machine = env::var("TARGET").expect("cargo names the machine");
    let top = Path::new(&crate_folder).ancestors().nth(2);
    let (file, how) = match named("GAUGE_ARCHIVE") {
        Some(file) => (
            file,
            "GAUGE_ARCHIVE names it, from the top of the repository",
        ),
        None => made(&machine),
    };
    link(
        &top.expect("the crate is two folders below the top")
            .join(file),
        how,
    );
}

fn link(archive: &Path, how: &str) {
    println!("cargo::rerun-if-changed={}", archive.display());
    let archive = archive
        .canonicalize()
        .unwrap_or_else(|why| stop(format!("{}: {why}; {how}", archive.display())));
    let directory = archive.parent().expect("a file has a directory");
    let name = archive.file_name().expect("a file has a name");
    println!("cargo::rustc-link-search=native={}", directory.display());
    println!(
        "cargo::rustc-link-lib=static:+verbatim={}",
        name.to_string_lossy()
    );
}
