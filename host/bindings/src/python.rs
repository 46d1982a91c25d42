//! What is printed for Python, as ctypes declares it.

use crate::declared::{Form, Function, Parameter, State};
use crate::exported::Exported;
use crate::limits::Limits;
use crate::refusals::Refusals;
use crate::text::{camel, filled};

const WIDTH: usize = 100;

const RAW: &str = "\
\"\"\"The archive's functions as ctypes declares them: crates/gauge_line/src has their contracts.

A slice is a pointer and a length; a state is its fields, each lent.

Printed by host/bindings/run.sh from there.
\"\"\"

from ctypes import POINTER, Structure
from ctypes import c_float as f32
from ctypes import c_int16 as i16, c_int32 as i32, c_int64 as i64
from ctypes import c_uint8 as u8, c_uint32 as u32, c_uint64 as u64

from . import limits
";

const LIMITS: &str = "\
\"\"\"The limits past which a call is refused, and the lengths of the arrays in a state.

Printed by host/bindings/run.sh from the constants of crates/.
\"\"\"

";

const REFUSALS: &str = "\
\"\"\"The refusals: for each number its name and when it applies.

Printed by host/bindings/run.sh from crates/refusal.
\"\"\"

TABLE = {
";

const FUNCTIONS: &str = "

# For each function what it answers, the number of a refusal or nothing, and its parameters.
FUNCTIONS = {
";

pub fn limits(limits: &Limits) -> String {
    let mut out = LIMITS.to_string();
    for limit in &limits.all {
        out += &format!("# {}\n{} = {}\n", limit.words, limit.name, limit.value);
    }
    out
}

/// A class for each state, then the functions.
pub fn functions(exported: &Exported, limits: &Limits) -> Result<String, String> {
    let mut out = RAW.to_string();
    for one in exported.states() {
        out += &state(&one, limits)?;
    }
    out += FUNCTIONS;
    for one in exported.functions() {
        out += &function(one, limits)?;
    }
    Ok(out + "}\n")
}

fn state(state: &State, limits: &Limits) -> Result<String, String> {
    let mut fields = String::new();
    for field in &state.fields {
        fields += &format!(
            "        (\"{}\", {}),\n",
            field.name,
            pointed(field, limits)?
        );
    }
    Ok(format!(
        "\n\nclass {}(Structure):\n    _fields_ = [\n{fields}    ]\n",
        camel(&state.name)
    ))
}

fn function(function: &Function, limits: &Limits) -> Result<String, String> {
    let answer = if function.answers { "u64" } else { "None" };
    let mut pieces = Vec::new();
    for one in &function.parameters {
        pieces.extend(parameter(one, limits)?);
    }
    let list = filled(&pieces, ", ", ("        ", "        "), WIDTH - 1);
    Ok(format!(
        "    \"{}\": ({answer}, [\n{list},\n    ]),\n",
        function.name
    ))
}

// A slice is a pointer and a length.
fn parameter(one: &Parameter, limits: &Limits) -> Result<Vec<String>, String> {
    let (name, kind) = (&one.name, pointed(one, limits)?);
    Ok(match one.form {
        Form::Value => vec![format!("(\"{name}\", {kind})")],
        Form::Place { .. } | Form::Array { .. } => vec![format!("(\"{name}\", POINTER({kind}))")],
        Form::Slice { .. } => vec![
            format!("(\"{name}\", POINTER({kind}))"),
            format!("(\"{name}_len\", u64)"),
        ],
    })
}

// What a parameter's value is, or what its pointer points to.
fn pointed(one: &Parameter, limits: &Limits) -> Result<String, String> {
    let number = one.number.in_rust();
    Ok(match one.form {
        Form::Array { length, .. } => format!("{number} * limits.{}", limits.length(one, length)?),
        _ => number.to_string(),
    })
}

pub fn refusals(refusals: &Refusals) -> String {
    let mut out = REFUSALS.to_string();
    for one in &refusals.all {
        let name = format!("{}: (\"{}\"", one.number, one.name);
        let reason = format!("\"{}\"),", one.reason);
        out += &filled(&[name, reason], ", ", ("    ", "        "), WIDTH);
        out.push('\n');
    }
    out + "}\n"
}
