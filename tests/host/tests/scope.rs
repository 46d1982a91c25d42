//! docs/SCOPE.md has a row for each refusal that the definitions number, and no other.
use std::collections::BTreeSet;
use std::fs;
use std::path::Path;

/// A file, from the top of the repository. That is asked when the test runs: a copy of the tree may
/// come with the binary of another.
fn read(path: &str) -> String {
    let own = std::env::var("CARGO_MANIFEST_DIR").expect("cargo runs the tests");
    let top = Path::new(&own).join("../..");
    fs::read_to_string(top.join(path)).unwrap_or_else(|why| panic!("{path}: {why}"))
}

/// The numbers of `number_of`, one a line: `number_of Stages = 1`.
fn defined(specs: &str) -> BTreeSet<u32> {
    let equations = specs
        .lines()
        .filter(|line| line.starts_with("number_of ") && !line.contains(':'));
    let numbers = equations.filter_map(|line| line.split_once(" = "));
    numbers
        .map(|(_, number)| number.parse().expect("a number"))
        .collect()
}

/// The numbers of the table's second column.
fn told(page: &str) -> BTreeSet<u32> {
    let below = page
        .lines()
        .skip_while(|line| *line != "## Where each call is turned back")
        .skip(1);
    let rows = below.take_while(|line| !line.starts_with("## "));
    let seconds = rows.filter_map(|row| row.split('|').nth(2));
    seconds
        .filter_map(|cell| cell.trim().parse().ok())
        .collect()
}

#[test]
fn every_refusal_has_its_row() {
    let numbers = defined(&read("crates/refusal/specs/Table.antt"));
    assert!(!numbers.is_empty());
    assert_eq!(told(&read("docs/SCOPE.md")), numbers);
}

#[test]
fn a_missing_row_is_found() {
    let page = read("docs/SCOPE.md").replace("| 13 |", "| |");
    let numbers = defined(&read("crates/refusal/specs/Table.antt"));
    assert_ne!(told(&page), numbers);
}
