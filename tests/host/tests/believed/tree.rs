//! The files of the repository.
use std::fs;
use std::path::{Path, PathBuf};

/// The top of the repository. Asked when the test runs: a copy of the tree may come with the binary
/// of another.
pub fn top() -> PathBuf {
    let own = std::env::var("CARGO_MANIFEST_DIR").expect("cargo runs the tests");
    Path::new(&own).join("../..")
}

pub fn read(path: &Path) -> String {
    fs::read_to_string(path).unwrap_or_else(|why| panic!("{}: {why}", path.display()))
}

/// The files of a folder with an ending, in order.
pub fn files(folder: &Path, ending: &str) -> Vec<PathBuf> {
    let entries = fs::read_dir(folder).into_iter().flatten().flatten();
    let mut found: Vec<PathBuf> = entries.map(|entry| entry.path()).collect();
    found.retain(|path| path.extension().is_some_and(|end| end == ending));
    found.sort();
    found
}

pub fn stem(path: &Path) -> String {
    path.file_stem()
        .map_or(String::new(), |stem| stem.to_string_lossy().to_string())
}

/// crates/CRATE/specs/FILE.antt, for CRATE/FILE.
pub fn specs(top: &Path, name: &str) -> String {
    let (layer, file) = name.split_once('/').expect("CRATE/FILE");
    read(&top.join(format!("crates/{layer}/specs/{file}.antt")))
}
