//! What is printed for C.

use crate::declared::{Form, Function, Parameter, State};
use crate::exported::Exported;
use crate::limits::Limits;
use crate::marks::Parts;
use crate::refusals::Refusals;
use crate::text::{camel, filled, snake};

const WIDTH: usize = 120;

const RAW: &str = "\
// The archive's functions over a state, which crosses as its fields, each lent. A program calls the functions over a
// struct instead: gauge_line.h, gauge_cic.h, gauge_q15.h, gauge_half_band.h, gauge_linear_phase.h, gauge_resampler.h
// and gauge_sheet.h have them, with their contracts.
//
// Printed by host/bindings/run.sh from what crates/gauge_line/src exports.
#ifndef GAUGE_RAW_H
#define GAUGE_RAW_H

#include \"gauge_limits.h\"
#include <stdint.h>

#ifdef __cplusplus
extern \"C\" {
#endif
";

const RAW_END: &str = "
#ifdef __cplusplus
}
#endif

#endif
";

const LIMITS: &str = "\
// The limits past which a call is refused, and the lengths of the arrays in a state.
//
// Printed by host/bindings/run.sh from the constants of crates/.
#ifndef GAUGE_LIMITS_H
#define GAUGE_LIMITS_H

";

pub fn limits(limits: &Limits) -> String {
    let mut out = LIMITS.to_string();
    for limit in &limits.all {
        let ending = if limit.number == "f32" { "f" } else { "" };
        out += &format!(
            "// {}\n#define GAUGE_{} {}{ending}\n",
            limit.words, limit.name, limit.value
        );
    }
    out + "\n#endif\n"
}

/// The functions that stand in no other header.
pub fn functions(exported: &Exported, limits: &Limits, parts: &Parts) -> Result<String, String> {
    let mut out = RAW.to_string();
    for group in &exported.groups {
        let mut printed = String::new();
        for one in group
            .iter()
            .filter(|one| !parts.is_laid("function", &one.name))
        {
            printed += &function(one, limits)?;
        }
        if !printed.is_empty() {
            out = out + "\n" + &printed;
        }
    }
    Ok(out + RAW_END)
}

pub fn function(function: &Function, limits: &Limits) -> Result<String, String> {
    let answer = if function.answers { "uint64_t" } else { "void" };
    let mut pieces = Vec::new();
    for one in &function.parameters {
        pieces.extend(parameter(one, limits)?);
    }
    let head = format!("{answer} {}(", function.name);
    let line = format!("{head}{});", pieces.join(", "));
    if line.len() <= WIDTH {
        return Ok(line + "\n");
    }
    // As clang-format does: the answer goes to a line of its own where the rest then fits in one.
    if line.len() - answer.len() - 1 <= WIDTH {
        return Ok(line.replacen(' ', "\n", 1) + "\n");
    }
    let list = filled(&pieces, ", ", ("    ", "    "), WIDTH);
    Ok(format!("{head}\n{list}\n);\n"))
}

// A slice is a pointer and a length.
fn parameter(one: &Parameter, limits: &Limits) -> Result<Vec<String>, String> {
    let (name, number) = (&one.name, one.number.in_c());
    let number = match one.form {
        Form::Value => number.to_string(),
        _ if one.is_writable() => number.to_string(),
        _ => format!("const {number}"),
    };
    Ok(match one.form {
        Form::Value => vec![format!("{number} {name}")],
        Form::Place { .. } => vec![format!("{number} *{name}")],
        Form::Array { length, .. } => {
            let length = limits.length(one, length)?;
            vec![format!("{number} {name}[GAUGE_{length}]")]
        }
        Form::Slice { .. } => vec![format!("{number} *{name}"), format!("uint64_t {name}_len")],
    })
}

/// The struct, and a macro that lends its members in the order in which they cross.
pub fn state(state: &State, limits: &Limits) -> Result<String, String> {
    let name = format!("gauge_{}", state.name);
    let mut members = String::new();
    let mut lent = Vec::new();
    for field in &state.fields {
        let (kind, member) = (field.number.in_c(), &field.name);
        if let Form::Array { length, .. } = field.form {
            let length = limits.length(field, length)?;
            members += &format!("    {kind} {member}[GAUGE_{length}];\n");
            lent.push(format!("(s)->{member}"));
        } else {
            members += &format!("    {kind} {member};\n");
            lent.push(format!("&(s)->{member}"));
        }
    }
    let fields = lending(&format!("#define {}_FIELDS(s)", name.to_uppercase()), &lent);
    Ok(format!(
        "typedef struct {{\n{members}}} {};\n\n{fields}\n",
        camel(&name)
    ))
}

// In one line, or in several that end in a backslash in the last column.
fn lending(head: &str, lent: &[String]) -> String {
    let line = format!("{head} {}", lent.join(", "));
    if line.len() <= WIDTH {
        return line;
    }
    let body = filled(lent, ", ", ("    ", "        "), WIDTH - 2);
    let mut lines: Vec<&str> = [head].into_iter().chain(body.lines()).collect();
    let last = lines.pop().expect("there is a line");
    let mut out: String = lines
        .iter()
        .map(|line| format!("{line:<width$}\\\n", width = WIDTH - 1))
        .collect();
    out += last;
    out
}

/// The numbers, and a function that names them.
pub fn refusals(refusals: &Refusals) -> String {
    let mut numbers = String::new();
    let mut cases = String::new();
    let last = refusals.all.len();
    for one in &refusals.all {
        let comma = if one.number as usize == last { "" } else { "," };
        let words: Vec<String> = one.in_c.split(' ').map(str::to_string).collect();
        numbers += &filled(&words, " ", ("    // ", "    // "), WIDTH);
        numbers.push('\n');
        let name = snake(&one.name).to_uppercase();
        numbers += &format!("    GAUGE_REFUSED_{name} = {}{comma}\n", one.number);
        cases += &format!(
            "    case GAUGE_REFUSED_{name}:\n        return \"{}\";\n",
            one.name
        );
    }
    format!(
        "enum GaugeRefusal {{
    // The call did what it was asked to.
    GAUGE_NOT_REFUSED = 0,
{numbers}}};

// The name of a number that a call answered; \"unknown\" for a number that none answers.
static inline const char *gauge_refusal_name(uint64_t number) {{
    switch (number) {{
    case GAUGE_NOT_REFUSED:
        return \"not refused\";
{cases}    default:
        return \"unknown\";
    }}
}}
"
    )
}
