//! The `use` lines of code and specs, and what the modules in them are.
use crate::tree::top;

/// A `use` line: the module, and the names by which its file knows what comes from there.
pub struct Use {
    pub module: String,
    pub known_as: Vec<String>,
    /// Whether it is the module itself that is known so.
    pub whole: bool,
}

pub fn use_of(line: &str) -> Option<Use> {
    let mut line = line.trim_start();
    for word in ["pub ", "ghost "] {
        line = line.strip_prefix(word).unwrap_or(line);
    }
    let path = line.strip_prefix("use ")?.trim_end_matches(';');
    if let Some((module, alias)) = path.split_once(" as ") {
        return Some(Use {
            module: module.to_string(),
            known_as: vec![alias.to_string()],
            whole: true,
        });
    }
    let (module, names) = path.split_once(".{")?;
    let names = names
        .strip_suffix('}')
        .unwrap_or_else(|| panic!("a `use` over several lines: {line}"));
    Some(Use {
        module: module.to_string(),
        known_as: names.split(", ").map(str::to_string).collect(),
        whole: false,
    })
}

/// What a module is.
#[derive(Clone, Debug, PartialEq, Eq, PartialOrd, Ord)]
pub enum Module {
    /// crates/CRATE/specs/FILE.antt, as CRATE/FILE, or CRATE/inner/FILE
    Specs(String),
    /// crates/CRATE/proofs/FILE.antt, as CRATE/proofs/FILE: what a contract of a private function needs besides specs/
    Proofs(String),
    /// a struct or enum of crates/CRATE/src/FILE.rt, as CRATE/src/FILE.rt and its name
    Declared(String, String),
    /// a module of the kit
    Kit(String),
}

/// `Rattle.line.specs.Outputs` is line/Outputs; `Rattle.line.specs.declared.settings.Settings` is
/// Settings in line/src/settings.rt. What is of no crate here is the kit's, as `Rattle.std.specs.Int`.
pub fn module(path: &str) -> Module {
    let own = path.strip_prefix("Rattle.").filter(|own| {
        let layer = own.split('.').next().unwrap_or_default();
        top().join("crates").join(layer).is_dir()
    });
    let Some(own) = own else {
        return Module::Kit(path.to_string());
    };
    if let Some((layer, place)) = own.split_once(".proofs.") {
        return Module::Proofs(format!("{layer}/proofs/{place}"));
    }
    let (layer, place) = own
        .split_once(".specs.")
        .unwrap_or_else(|| panic!("{path} is not of specs/"));
    let Some(declared) = place.strip_prefix("declared.") else {
        return Module::Specs(format!("{layer}/{}", place.replace('.', "/")));
    };
    let declared = declared.trim_end_matches(".TheVariants");
    let (file, name) = declared.rsplit_once('.').unwrap_or(("lib", declared));
    Module::Declared(
        format!("{layer}/src/{}.rt", file.replace('.', "/")),
        name.to_string(),
    )
}
