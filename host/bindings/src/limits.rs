//! The limits and lengths that C, Rust and Python have names for, as limits.txt lists them.

use crate::constants::Constants;
use crate::declared::{Form, Number, Parameter};
use crate::exported::Exported;
use crate::text;
use std::path::Path;

const TABLE: &str = "host/bindings/limits.txt";

/// A limit with its value, as Rattle writes it.
pub struct Limit {
    pub name: String,
    pub number: String,
    pub value: String,
    pub words: String,
    source: String,
    /// The numbers of which an array can be so long.
    lengths: Vec<Number>,
}

pub struct Limits {
    pub all: Vec<Limit>,
}

impl Limits {
    pub fn read(root: &Path, constants: &Constants, exported: &Exported) -> Result<Limits, String> {
        let table = text::read(&root.join(TABLE))?;
        let rows = table.lines().filter(|line| !line.starts_with('#'));
        let all = rows.map(|row| {
            limit(row, constants, exported).map_err(|why| format!("{TABLE}: {row}: {why}"))
        });
        Ok(Limits {
            all: all.collect::<Result<Vec<Limit>, String>>()?,
        })
    }

    pub fn value(&self, name: &str) -> Result<&str, String> {
        let limit = self.all.iter().find(|limit| limit.name == name);
        let limit = limit.ok_or_else(|| format!("{TABLE} has no {name}"))?;
        Ok(&limit.value)
    }

    /// The name of the length of an array: the only one that fits, or else that of the constant that the array is declared by.
    pub fn length(&self, array: &Parameter, length: u64) -> Result<&str, String> {
        let (number, value) = (array.number, length.to_string());
        let fits = |limit: &&Limit| limit.lengths.contains(&number) && limit.value == value;
        let named: Vec<&Limit> = self.all.iter().filter(fits).collect();
        let constant = array.constant.as_ref();
        let its_own = named.iter().find(|one| Some(&one.source) == constant);
        let words = format!("an array of {length} {}", number.in_rust());
        match (named.as_slice(), its_own) {
            ([limit], _) | (_, Some(limit)) => Ok(&limit.name),
            ([], _) => Err(format!("{TABLE} has no length for {words}")),
            _ => Err(format!("{TABLE} has several lengths for {words}")),
        }
    }
}

// From `NAME = SOURCE (numbers): words`.
fn limit(row: &str, constants: &Constants, exported: &Exported) -> Result<Limit, String> {
    let (name, rest) = row.split_once(" = ").ok_or("no source")?;
    let (source, words) = rest.split_once(": ").ok_or("no words")?;
    let (source, lengths) = source.split_once(" (").unwrap_or((source, ""));
    let lengths = lengths.trim_end_matches(')').split_whitespace();
    let (number, value) = match source.split_once("::") {
        Some((from, constant)) => constants.value(from, constant)?,
        None => ("usize".to_string(), length(source, exported)?.to_string()),
    };
    Ok(Limit {
        name: name.to_string(),
        number,
        value,
        words: words.to_string(),
        source: source.to_string(),
        lengths: lengths.map(Number::named).collect::<Result<_, _>>()?,
    })
}

// From `function(parameter)`.
fn length(source: &str, exported: &Exported) -> Result<u64, String> {
    let (function, parameter) = source
        .trim_end_matches(')')
        .split_once('(')
        .ok_or("no source")?;
    match exported.parameter(function, parameter)?.form {
        Form::Array { length, .. } => Ok(length),
        _ => Err(format!("{parameter} is no array")),
    }
}
