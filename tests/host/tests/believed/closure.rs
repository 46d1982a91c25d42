//! The files that the line's contracts rest on, by `use` lines.
use crate::tree::{files, read, specs, stem};
use crate::uses::{Module, module, use_of};
use std::collections::BTreeSet;
use std::fs;
use std::path::Path;

/// The line's public calls, whose contracts the closure begins with.
const CALLS: [&str; 5] = ["open", "step", "feed", "reset", "next_piece"];

/// The contract of the public function: its lines from the name to the body.
fn contract(source: &str, call: &str) -> Option<String> {
    let begins = |line: &str| {
        let behind = line
            .trim_start()
            .strip_prefix("pub fn ")
            .and_then(|rest| rest.strip_prefix(call));
        behind.is_some_and(|rest| rest.starts_with(['(', '<']))
    };
    let from = source.lines().position(begins)?;
    let head = source
        .lines()
        .skip(from)
        .take_while(|line| line.trim() != "{");
    Some(head.collect::<Vec<&str>>().join("\n"))
}

fn mentions(text: &str, name: &str) -> bool {
    let no_name = |c: char| c.is_whitespace() || "(){},.;:".contains(c);
    text.split(no_name).any(|word| word == name)
}

/// The modules that a contract cites.
fn cited(source: &str, call: &str) -> Vec<Module> {
    let Some(contract) = contract(source, call) else {
        return Vec::new();
    };
    let all = source.lines().filter_map(use_of);
    let cited = all.filter(|each| each.known_as.iter().any(|name| mentions(&contract, name)));
    cited.map(|each| module(&each.module)).collect()
}

pub fn begin(top: &Path) -> Vec<Module> {
    let sources: Vec<String> = files(&top.join("crates/line/src"), "rt")
        .iter()
        .map(|file| read(file))
        .collect();
    let mut all = Vec::new();
    for call in CALLS {
        let found: Vec<Module> = sources
            .iter()
            .flat_map(|source| cited(source, call))
            .collect();
        assert!(!found.is_empty(), "no contract of the line's {call}");
        all.extend(found);
    }
    all
}

/// Everything that these modules rest on, themselves included.
pub fn closure(top: &Path, mut waiting: Vec<Module>) -> BTreeSet<Module> {
    let mut all = BTreeSet::new();
    while let Some(next) = waiting.pop() {
        if !all.insert(next.clone()) {
            continue;
        }
        if let Module::Specs(name) = next {
            waiting.extend(
                specs(top, &name)
                    .lines()
                    .filter_map(use_of)
                    .map(|each| module(&each.module)),
            );
        }
    }
    all
}

/// The files of a folder of every crate but the lists of modules, as CRATE/FILE with `front` before FILE.
fn stems(top: &Path, folder: &str, front: &str) -> BTreeSet<String> {
    let crates = fs::read_dir(top.join("crates"))
        .expect("crates/ is there")
        .flatten();
    let mut all = BTreeSet::new();
    for layer in crates {
        let name = layer.file_name().to_string_lossy().to_string();
        let stems = files(&layer.path().join(folder), "antt")
            .into_iter()
            .map(|file| stem(&file));
        all.extend(
            stems
                .filter(|stem| stem != "Lib" && stem != "inner")
                .map(|stem| format!("{name}/{front}{stem}")),
        );
    }
    all
}

/// All files of specs/ but those of specs/inner/.
pub fn outer_specs(top: &Path) -> BTreeSet<String> {
    stems(top, "specs", "")
}

/// All files of specs/inner/.
pub fn inner_specs(top: &Path) -> BTreeSet<String> {
    stems(top, "specs/inner", "inner/")
}

/// What of specs/inner/ a file of specs/ outside it rests on, by its `use` lines.
fn inner_in_specs(top: &Path) -> Vec<String> {
    let mut found = Vec::new();
    for name in outer_specs(top) {
        let text = specs(top, &name);
        let used = text.lines().filter_map(use_of);
        found.extend(
            used.filter(|each| each.module.contains(".specs.inner."))
                .map(|each| format!("{name} rests on {}", each.module)),
        );
    }
    found
}

/// The functions of a source that C calls.
fn exported(source: &str) -> Vec<&str> {
    let names = source
        .lines()
        .filter_map(|line| line.strip_prefix("pub extern \"C\" fn "));
    names.filter_map(|rest| rest.split('(').next()).collect()
}

/// What of specs/inner/ a contract of a function that C calls cites, in one source.
fn inner_cited(source: &str) -> Vec<String> {
    let plain = source.replace("pub extern \"C\" fn ", "pub fn ");
    let mut found = Vec::new();
    for call in exported(source) {
        let inner = cited(&plain, call)
            .into_iter()
            .filter_map(|each| match each {
                Module::Specs(name) if name.contains("/inner/") => Some(name),
                _ => None,
            });
        found.extend(inner.map(|name| format!("{call} cites {name}")));
    }
    found
}

fn inner_in_exports(top: &Path) -> Vec<String> {
    let sources = files(&top.join("crates/gauge_line/src"), "rt");
    sources
        .iter()
        .flat_map(|file| inner_cited(&read(file)))
        .collect()
}

/// Where something that is believed needs specs/inner/.
pub fn inner_believed(top: &Path) -> Vec<String> {
    let mut found = inner_in_specs(top);
    found.extend(inner_in_exports(top));
    found
}

#[test]
fn exported_functions_are_found() {
    let source = "pub extern \"C\" fn a(\n    x: usize,\n) -> usize\n{\n}\nfn b() {}\npub extern \"C\" fn c()\n{\n}\n";
    assert_eq!(exported(source), ["a", "c"]);
}

#[test]
fn a_citation_of_inner_is_found() {
    let source = |clause: &str| {
        let used = "ghost use Rattle.gauge_line.specs.inner.Numbers.{made_in};\n";
        format!(
            "{used}pub extern \"C\" fn a(x: usize) -> usize\n    ensures {{ {clause} }}\n{{\n}}\n"
        )
    };
    let found = ["a cites gauge_line/inner/Numbers"];
    assert_eq!(inner_cited(&source("result ≡ made_in x")), found);
    assert!(inner_cited(&source("result ≡ x")).is_empty());
}
