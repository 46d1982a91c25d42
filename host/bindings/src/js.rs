//! What is printed for JavaScript: the page calls the module by these.

use crate::declared::{Form, Function, Parameter};
use crate::exported::Exported;
use crate::limits::Limits;
use crate::refusals::Refusals;
use crate::text::filled;

const WIDTH: usize = 120;

const HEAD: &str = "\
// The module's functions as they are exported, its states, the limits and the refusals. A slice is a pointer and a
// length; a state is its fields, each lent: what its opening writes.
//
// Printed by host/bindings/run.sh from what crates/ declares.

";

pub fn declarations(
    exported: &Exported,
    limits: &Limits,
    refusals: &Refusals,
) -> Result<String, String> {
    let mut functions = String::new();
    for one in exported.functions() {
        functions += &function(one, limits)?;
    }
    let states: String = exported
        .states()
        .iter()
        .map(|state| format!("    {}: '{}',\n", state.name, state.opening))
        .collect();
    Ok(format!(
        "{HEAD}{}\nexport const FUNCTIONS = {{\n{functions}}};\n\n// The opening of each state.\nexport const STATES = {{\n{states}}};\n\n{}",
        limited(limits),
        refused(refusals)
    ))
}

fn limited(limits: &Limits) -> String {
    let mut out = "export const LIMITS = {\n".to_string();
    for limit in &limits.all {
        out += &format!(
            "    // {}\n    {}: {},\n",
            limit.words, limit.name, limit.value
        );
    }
    out + "};\n"
}

fn function(function: &Function, limits: &Limits) -> Result<String, String> {
    let mut pieces = Vec::new();
    for one in &function.parameters {
        pieces.push(format!("'{}'", parameter(one, limits)?));
    }
    let line = format!("    {}: [{}],\n", function.name, pieces.join(", "));
    if line.len() <= WIDTH + 1 {
        return Ok(line);
    }
    let list = filled(&pieces, ", ", ("        ", "        "), WIDTH - 1);
    Ok(format!("    {}: [\n{list},\n    ],\n", function.name))
}

// As Rust writes it: `combs: &mut [i32; MOST_STAGES]`.
fn parameter(one: &Parameter, limits: &Limits) -> Result<String, String> {
    let (name, number) = (&one.name, one.number.in_rust());
    let lent = if one.is_writable() { "&mut " } else { "&" };
    Ok(match one.form {
        Form::Value => format!("{name}: {number}"),
        Form::Place { .. } => format!("{name}: {lent}{number}"),
        Form::Array { length, .. } => {
            format!("{name}: {lent}[{number}; {}]", limits.length(one, length)?)
        }
        Form::Slice { .. } => format!("{name}: {lent}[{number}]"),
    })
}

// By number: the name, and when it applies.
fn refused(refusals: &Refusals) -> String {
    let mut out =
        "// By number, from 1: the name, and when it applies.\nexport const REFUSALS = {\n"
            .to_string();
    for one in &refusals.all {
        out += &format!(
            "    {}: ['{}', \"{}\"],\n",
            one.number, one.name, one.reason
        );
    }
    out + "};\n"
}
