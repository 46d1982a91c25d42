//! The functions that crates/gauge_line/src exports.

use crate::constants::{Constants, Scope};
use crate::declared::{Function, Parameter, State};
use crate::text;
use std::path::Path;

const HEAD: &str = "extern \"C\" fn ";
/// What the archive's names begin with.
pub const PREFIX: &str = "gauge_raw_";
/// What the names of openings end with.
const OPENINGS: [&str; 3] = ["_new", "_open", "_from_taps"];

/// Group by group: the functions of one file.
pub struct Exported {
    pub groups: Vec<Vec<Function>>,
}

impl Exported {
    pub fn read(root: &Path, constants: &Constants) -> Result<Exported, String> {
        let mut groups = Vec::new();
        for path in text::files(&root.join("crates/gauge_line/src"))? {
            let code = text::code(&text::read(&path)?);
            let scope = constants.scope("gauge_line", &code);
            let group =
                functions(&code, &scope).map_err(|why| format!("{}: {why}", path.display()))?;
            if !group.is_empty() {
                groups.push(group);
            }
        }
        if groups.is_empty() {
            return Err("crates/gauge_line/src exports nothing".to_string());
        }
        Ok(Exported { groups })
    }

    pub fn functions(&self) -> impl Iterator<Item = &Function> {
        self.groups.iter().flatten()
    }

    pub fn states(&self) -> Vec<State> {
        let mut states = Vec::new();
        for function in self.functions() {
            let Some(name) = opened(&function.name) else {
                continue;
            };
            let writable = function.parameters.iter().filter(|one| one.is_writable());
            states.push(State {
                name: name.to_string(),
                opening: function.name.clone(),
                fields: writable.cloned().collect(),
            });
        }
        states
    }

    pub fn parameter(&self, function: &str, parameter: &str) -> Result<&Parameter, String> {
        self.functions()
            .find(|one| one.name == function)
            .and_then(|one| one.parameters.iter().find(|one| one.name == parameter))
            .ok_or_else(|| format!("no {function} with a parameter {parameter}"))
    }
}

// The state that a function of this name opens. A number behind the ending is that of the state's layout.
fn opened(function: &str) -> Option<&str> {
    let name = function.strip_prefix(PREFIX)?;
    let unnumbered = name.trim_end_matches(|letter: char| letter.is_ascii_digit());
    let name = unnumbered.strip_suffix('_').unwrap_or(name);
    OPENINGS.iter().find_map(|ending| name.strip_suffix(ending))
}

fn functions(code: &str, scope: &Scope) -> Result<Vec<Function>, String> {
    code.split(HEAD)
        .skip(1)
        .map(|behind| function(behind, scope))
        .collect()
}

// From what stands behind the head: `name(parameters) -> usize`.
fn function(behind: &str, scope: &Scope) -> Result<Function, String> {
    let (name, rest) = behind
        .split_once('(')
        .ok_or("a function without parameters")?;
    let (list, rest) = rest.split_once(')').ok_or("parameters without an end")?;
    let said = |why: String| format!("{name}: {why}");
    if !name.starts_with(PREFIX) {
        return Err(said(format!("does not begin with {PREFIX}")));
    }
    let each = list.split(',').map(str::trim).filter(|one| !one.is_empty());
    let parameters: Result<Vec<Parameter>, String> =
        each.map(|one| Parameter::parse(one, scope)).collect();
    let answer = rest
        .trim_start()
        .strip_prefix("->")
        .map(|rest| rest.split_whitespace().next());
    let answers = match answer {
        None => false,
        Some(Some("usize")) => true,
        Some(_) => return Err(said("answers something else than usize".to_string())),
    };
    Ok(Function {
        name: name.to_string(),
        parameters: parameters.map_err(said)?,
        answers,
    })
}
