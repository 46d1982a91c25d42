//! The tables of docs/believed.md.
use std::collections::BTreeSet;

pub fn quoted(cell: &str) -> Vec<String> {
    cell.split('`')
        .skip(1)
        .step_by(2)
        .map(str::to_string)
        .collect()
}

/// The rows of the tables below a heading: the names of the first cell, and those of the second.
pub fn table(page: &str, heading: &str) -> Vec<(Vec<String>, Vec<String>)> {
    let below = page
        .lines()
        .skip_while(|line| *line != format!("## {heading}"))
        .skip(1);
    let rows = below
        .take_while(|line| !line.starts_with("## "))
        .filter_map(|line| line.strip_prefix("| `"));
    let cells = rows.map(|row| row.split_once(" | ").unwrap_or((row, "")));
    cells
        .map(|(first, second)| (quoted(&format!("`{first}")), quoted(second)))
        .collect()
}

pub fn first_names(page: &str, heading: &str) -> BTreeSet<String> {
    table(page, heading)
        .into_iter()
        .flat_map(|(first, _)| first)
        .collect()
}

/// Pairs of a table whose rows name a file and then things of it, as "FILE NAME".
pub fn pairs(page: &str, heading: &str) -> BTreeSet<String> {
    let rows = table(page, heading);
    rows.iter()
        .flat_map(|(file, names)| names.iter().map(move |name| format!("{} {name}", file[0])))
        .collect()
}

/// What one of two sets has and the other has not.
pub fn differing(what: &str, rests_on: &BTreeSet<String>, named: &BTreeSet<String>) -> Vec<String> {
    let missing = rests_on
        .difference(named)
        .map(|name| format!("{what} `{name}` is missing"));
    let too_many = named
        .difference(rests_on)
        .map(|name| format!("{what} `{name}` is not of it"));
    missing.chain(too_many).collect()
}
