//! What is printed for Rust, laid out as rustfmt does.

use crate::declared::{Form, Function, Parameter};
use crate::exported::Exported;
use crate::limits::Limits;
use crate::refusals::Refusals;
use crate::text::filled;
use std::collections::BTreeSet;

const WIDTH: usize = 100;
/// The longest tuple that rustfmt leaves in one line.
const TUPLE: usize = 60;

const RAW: &str = "\
//! The archive's functions as they are exported: crates/gauge_line/src has their contracts. A slice is a pointer and a length; a state is its fields, each lent.
//!
//! Printed by host/bindings/run.sh from there.

";

const LIMITS: &str = "\
//! The limits past which an opening or a block is refused, and the lengths of the arrays in a state.
//!
//! Printed by host/bindings/run.sh from the constants of crates/.

";

pub fn limits(limits: &Limits) -> String {
    let mut out = LIMITS.to_string();
    for limit in &limits.all {
        out += &format!(
            "/// {}\npub const {}: {} = {};\n",
            limit.words, limit.name, limit.number, limit.value
        );
    }
    out
}

pub fn functions(exported: &Exported, limits: &Limits) -> Result<String, String> {
    let mut used = BTreeSet::new();
    let mut printed = String::new();
    for one in exported.functions() {
        printed += &function(one, limits, &mut used)?;
    }
    let used: Vec<String> = used.into_iter().collect();
    Ok(format!(
        "{RAW}{}\nunsafe extern \"C\" {{\n{printed}}}\n",
        imported(&used)
    ))
}

fn imported(names: &[String]) -> String {
    let line = format!("use crate::limits::{{{}}};\n", names.join(", "));
    if line.len() <= WIDTH + 1 {
        return line;
    }
    let list = filled(names, ", ", ("    ", "    "), WIDTH - 1);
    format!("use crate::limits::{{\n{list},\n}};\n")
}

fn function(
    function: &Function,
    limits: &Limits,
    used: &mut BTreeSet<String>,
) -> Result<String, String> {
    let mut pieces = Vec::new();
    for one in &function.parameters {
        pieces.extend(parameter(one, limits, used)?);
    }
    let head = format!("    pub fn {}(", function.name);
    let answer = if function.answers { " -> u64" } else { "" };
    let line = format!("{head}{}){answer};", pieces.join(", "));
    if line.len() <= WIDTH {
        return Ok(line + "\n");
    }
    let list: String = pieces
        .iter()
        .map(|piece| format!("        {piece},\n"))
        .collect();
    Ok(format!("{head}\n{list}    ){answer};\n"))
}

fn parameter(
    one: &Parameter,
    limits: &Limits,
    used: &mut BTreeSet<String>,
) -> Result<Vec<String>, String> {
    let (name, number) = (&one.name, one.number.in_rust());
    let (lent, pointed) = if one.is_writable() {
        ("&mut ", "*mut ")
    } else {
        ("&", "*const ")
    };
    Ok(match one.form {
        Form::Value => vec![format!("{name}: {number}")],
        Form::Place { .. } => vec![format!("{name}: {lent}{number}")],
        Form::Array { length, .. } => {
            let length = limits.length(one, length)?;
            used.insert(length.to_string());
            vec![format!("{name}: {lent}[{number}; {length}]")]
        }
        Form::Slice { .. } => {
            vec![
                format!("{name}: {pointed}{number}"),
                format!("{name}_len: u64"),
            ]
        }
    })
}

/// The enum, and a table with the name and the reason of each.
pub fn refusals(refusals: &Refusals) -> String {
    let mut variants = String::new();
    let mut rows = String::new();
    for one in &refusals.all {
        variants += &format!(
            "    /// {}\n    {} = {},\n",
            one.in_rust, one.name, one.number
        );
        let (name, reason) = (&one.name, &one.reason);
        let row = format!("Refusal::{name}, \"{name}\", \"{reason}\"");
        rows += &if row.len() <= TUPLE {
            format!("    ({row}),\n")
        } else {
            format!(
                "    (\n        Refusal::{name},\n        \"{name}\",\n        \"{reason}\",\n    ),\n"
            )
        };
    }
    format!(
        "#[derive(Clone, Copy, Debug, PartialEq, Eq, Hash)]
pub enum Refusal {{
{variants}}}

// In the order of the numbers: the refusal, its name, when it applies.
const TABLE: [(Refusal, &str, &str); {}] = [
{rows}];
",
        refusals.all.len()
    )
}
