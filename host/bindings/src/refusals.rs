//! The refusals: names and numbers as crates/refusal has them, in its code and in its table of specs, and the words for each from refusals.txt.

use crate::limits::Limits;
use crate::text;
use std::path::Path;

const CODE: &str = "crates/refusal/src/lib.rt";
const TABLE: &str = "crates/refusal/specs/Table.antt";
const WORDS: &str = "host/bindings/refusals.txt";

pub struct Refusal {
    pub number: u64,
    pub name: String,
    /// When it applies, shortly: limits by value.
    pub reason: String,
    /// When it applies, as a sentence: limits by their names in C, and by value.
    pub in_c: String,
    pub in_rust: String,
}

pub struct Refusals {
    /// By number, from 1.
    pub all: Vec<Refusal>,
}

impl Refusals {
    pub fn read(root: &Path, limits: &Limits) -> Result<Refusals, String> {
        let names = numbered(&text::read(&root.join(CODE))?, "");
        let table = numbered(&text::read(&root.join(TABLE))?, "number_of ");
        if names != table {
            return Err(format!(
                "{CODE} and {TABLE} number the refusals differently"
            ));
        }
        let words = text::read(&root.join(WORDS))?;
        let mut all = Vec::new();
        for (place, (number, name)) in names.into_iter().enumerate() {
            if number != place as u64 + 1 {
                return Err(format!("{CODE}: no refusal {}", place + 1));
            }
            all.push(worded(number, name, &words, limits)?);
        }
        if all.is_empty() {
            return Err(format!("{CODE}: no refusals"));
        }
        Ok(Refusals { all })
    }
}

// The lines `PREFIX Name = number`, by number: of the enum each behind no prefix and with a comma, of the table behind the definition's name.
fn numbered(source: &str, prefix: &str) -> Vec<(u64, String)> {
    let rows = source.lines().filter_map(|line| {
        let row = line.trim().trim_end_matches(',').strip_prefix(prefix)?;
        let (name, number) = row.split_once(" = ")?;
        let number = number.parse().ok()?;
        text::is_name(name).then(|| (number, name.to_string()))
    });
    let mut rows: Vec<(u64, String)> = rows.collect();
    rows.sort();
    rows
}

// `Name: reason`, and behind it the sentence, indented, where that says more.
fn worded(number: u64, name: String, words: &str, limits: &Limits) -> Result<Refusal, String> {
    let mut lines = words
        .lines()
        .skip_while(|line| !line.starts_with(&format!("{name}: ")));
    let reason = lines
        .next()
        .and_then(|line| line.split_once(": "))
        .ok_or_else(|| format!("{WORDS} has no words for {number}, {name}"))?
        .1;
    let more = lines.next().and_then(|line| line.strip_prefix("    "));
    let sentence = match more {
        Some(more) => more.to_string(),
        None => text::capitalised(reason) + ".",
    };
    let by_name = |limit: &str| limits.value(limit).map(|_| format!("GAUGE_{limit}"));
    let by_value = |limit: &str| limits.value(limit).map(grouped);
    Ok(Refusal {
        number,
        name,
        reason: said(reason, by_value)?,
        in_c: said(&sentence, by_name)?,
        in_rust: said(&sentence, by_value)?,
    })
}

// The words with each `{LIMIT}` as it is said.
fn said(words: &str, how: impl Fn(&str) -> Result<String, String>) -> Result<String, String> {
    let mut parts = words.split('{');
    let mut out = parts.next().unwrap_or_default().to_string();
    for part in parts {
        let (limit, rest) = part
            .split_once('}')
            .ok_or_else(|| format!("no }} in {words}"))?;
        out += &how(limit)?;
        out += rest;
    }
    Ok(out)
}

// 4096 as 4,096 and 0.015625 as 1/64.
fn grouped(value: &str) -> String {
    if value.starts_with("0.") {
        let whole = value.parse::<f32>().map(f32::recip);
        return whole.map_or(value.to_string(), |whole| format!("1/{whole}"));
    }
    let value = value.trim_end_matches(".0");
    if value.len() < 4 {
        return value.to_string();
    }
    let (front, back) = value.split_at(value.len() - 3);
    format!("{},{back}", grouped(front))
}
