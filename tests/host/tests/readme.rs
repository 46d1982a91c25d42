//! The pages at the top: README.md is short and quotes what stands in its files, and CHANGELOG.md
//! begins with the version.
use std::fs;
use std::path::Path;

/// "About 5 KB": what is longer belongs on a page of its own.
const MOST_BYTES: usize = 6000;

/// A file, from the top of the repository. That is asked when the test runs: a copy of the tree may
/// come with the binary of another.
fn read(path: &str) -> String {
    let own = std::env::var("CARGO_MANIFEST_DIR").expect("cargo runs the tests");
    let top = Path::new(&own).join("../..");
    fs::read_to_string(top.join(path)).unwrap_or_else(|why| panic!("{path}: {why}"))
}

/// The blocks of a page whose first line names a file behind the language: the file, and the lines.
fn quotations(page: &str) -> Vec<(String, Vec<String>)> {
    let blocks = page.split("\n```").skip(1).step_by(2);
    let headed = blocks.filter_map(|block| block.split_once('\n'));
    let named = headed.filter_map(|(head, body)| Some((head.split_once(' ')?.1, body)));
    named
        .map(|(file, body)| (file.to_string(), trimmed(body)))
        .collect()
}

fn trimmed(text: &str) -> Vec<String> {
    text.lines()
        .map(|line| line.trim_start().to_string())
        .collect()
}

/// Whether the pieces of a quotation, between lines `..`, stand in the text one after the other.
fn stands(quoted: &[String], text: &[String]) -> bool {
    let mut rest = text;
    for piece in quoted.split(|line| line == "..") {
        if piece.is_empty() {
            continue;
        }
        let Some(at) = rest.windows(piece.len()).position(|window| window == piece) else {
            return false;
        };
        rest = &rest[at + piece.len()..];
    }
    true
}

#[test]
fn the_readme_quotes_what_stands_there() {
    for page in ["README.md", "CONTRIBUTING.md"] {
        let quoted = quotations(&read(page));
        assert!(!quoted.is_empty(), "{page} quotes nothing");
        for (file, lines) in quoted {
            let text = trimmed(&read(&file));
            assert!(
                stands(&lines, &text),
                "{page}: not in {file}:\n{}",
                lines.join("\n")
            );
        }
    }
}

#[test]
fn a_quotation_that_does_not_stand_there_is_found() {
    let text = trimmed("a\n  b\nc\n");
    assert!(stands(&trimmed("a\n..\nc"), &text));
    assert!(!stands(&trimmed("a\nc"), &text));
    assert!(!stands(&trimmed("c\n..\na"), &text));
}

#[test]
fn the_readme_is_short() {
    let bytes = read("README.md").len();
    assert!(bytes <= MOST_BYTES, "README.md has {bytes} bytes");
}

#[test]
fn the_changelog_begins_with_the_version() {
    let log = read("CHANGELOG.md");
    let newest = log.lines().find_map(|line| line.strip_prefix("## "));
    assert_eq!(newest, Some(read("VERSION").trim()));
}
