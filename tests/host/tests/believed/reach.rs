//! The definitions that one definition rests on. Names are looked up as antt does: in the file, then
//! among what its `use` lines bring.
use crate::tree::specs;
use crate::uses::{Module, module, use_of};
use std::collections::{BTreeMap, BTreeSet};
use std::path::Path;

/// A definition: its lines without comments, and whether it is a record or a type of cases.
#[derive(Default)]
struct Definition {
    lines: Vec<String>,
    block: bool,
}

/// A file of specs: what stands in it, and what its names from elsewhere mean.
struct File {
    definitions: BTreeMap<String, Definition>,
    brought: BTreeMap<String, String>,
    /// Modules, by the names that they have here.
    modules: BTreeMap<String, String>,
}

fn indent(line: &str) -> usize {
    line.len() - line.trim_start().len()
}

/// The name that a line defines, and whether a block of fields or cases follows.
fn defined(line: &str) -> Option<(String, bool)> {
    let line = line.trim_start();
    let line = line.strip_prefix("unfoldable ").unwrap_or(line);
    let line = line.strip_prefix("abbrev ").unwrap_or(line);
    let rest = line.strip_prefix("pub ")?;
    let block = rest.strip_prefix("record ").or(rest.strip_prefix("data "));
    let name = block.unwrap_or(rest).split([' ', ':']).next()?;
    Some((name.to_string(), block.is_some()))
}

/// A line that says something: no comment, no blank, no `use`, no parameters of a module.
fn says(line: &&str) -> bool {
    let code = line.trim_start();
    let other = ["--", "use ", "module _"];
    !code.is_empty() && !other.iter().any(|begin| code.starts_with(begin))
}

/// The definitions of a file. A line belongs to the last one that began; a field of a block begins none.
fn definitions(text: &str) -> BTreeMap<String, Definition> {
    let mut all: BTreeMap<String, Definition> = BTreeMap::new();
    let (mut current, mut within) = (String::new(), None);
    for line in text.lines().filter(says) {
        if within.is_some_and(|depth| indent(line) <= depth) {
            within = None;
        }
        if let (None, Some((name, block))) = (within, defined(line)) {
            within = block.then(|| indent(line));
            all.entry(name.clone()).or_default().block = block;
            current = name;
        }
        let lines = &mut all.entry(current.clone()).or_default().lines;
        lines.push(line.to_string());
    }
    all
}

fn file(top: &Path, name: &str) -> File {
    let text = specs(top, name);
    let (mut brought, mut modules) = (BTreeMap::new(), BTreeMap::new());
    for each in text.lines().filter_map(use_of) {
        if let Module::Specs(from) = module(&each.module) {
            let known = each.known_as.into_iter().map(|known| (known, from.clone()));
            if each.whole {
                modules.extend(known);
            } else {
                brought.extend(known);
            }
        }
    }
    File {
        definitions: definitions(&text),
        brought,
        modules,
    }
}

impl File {
    /// The definition that a name belongs to: itself, or the block that has it as a field or a case.
    fn owner(&self, name: &str) -> Option<String> {
        if self.definitions.contains_key(name) {
            return Some(name.to_string());
        }
        let has = |line: &String| {
            let line = line.trim_start();
            let line = line.strip_prefix("pub ").unwrap_or(line);
            line.strip_prefix(name)
                .is_some_and(|rest| rest.starts_with(" :"))
        };
        let mut blocks = self.definitions.iter().filter(|(_, each)| each.block);
        blocks
            .find(|(_, each)| each.lines.iter().any(has))
            .map(|(name, _)| name.clone())
    }

    /// What a word of a definition in the file `own` names: file and name. Behind a name its fields may stand.
    fn named(&self, own: &str, word: &str) -> Option<(String, String)> {
        let mut parts = word.split('.');
        let first = parts.next()?;
        if let Some(from) = self.modules.get(first) {
            return Some((from.clone(), parts.next()?.to_string()));
        }
        if self.definitions.contains_key(first) {
            return Some((own.to_string(), first.to_string()));
        }
        let from = self.brought.get(first)?;
        Some((from.clone(), first.to_string()))
    }
}

fn words(line: &str) -> impl Iterator<Item = &str> {
    let between = |c: char| c.is_whitespace() || "(){},;[]|".contains(c);
    line.split(between).filter(|word| !word.is_empty())
}

/// The definitions that `name` of the file rests on, itself included, as "FILE NAME".
pub fn reached(top: &Path, from: &str, name: &str) -> BTreeSet<String> {
    let mut files: BTreeMap<String, File> = BTreeMap::new();
    let mut all = BTreeSet::new();
    let mut waiting = vec![(from.to_string(), name.to_string())];
    while let Some((own, name)) = waiting.pop() {
        let known = files.entry(own.clone()).or_insert_with(|| file(top, &own));
        let owner = known
            .owner(&name)
            .unwrap_or_else(|| panic!("{own} has no {name}"));
        if all.insert(format!("{own} {owner}")) {
            let lines = known.definitions[&owner].lines.iter();
            let words = lines.flat_map(|line| words(line));
            waiting.extend(words.filter_map(|word| known.named(&own, word)));
        }
    }
    all
}

#[test]
fn a_field_is_behind_its_name() {
    let text = "abbrev pub f : A → B\nf a = g a\n";
    let maps = |known: &str| BTreeMap::from([(known.to_string(), "line/Line".to_string())]);
    let file = File {
        definitions: definitions(text),
        brought: maps("opened"),
        modules: maps("L"),
    };
    let named = |word: &str| {
        file.named("own/File", word)
            .map(|(from, name)| from + " " + &name)
    };
    assert_eq!(named("f.first").as_deref(), Some("own/File f"));
    assert_eq!(
        named("opened.number.x").as_deref(),
        Some("line/Line opened")
    );
    assert_eq!(named("L.valid.x").as_deref(), Some("line/Line valid"));
    assert_eq!(named("a.b"), None);
}

#[test]
fn fields_and_cases_belong_to_their_block() {
    let text = "pub record Kept : Type 0 where\n  -- why\n  pub first : A\n\nabbrev pub f : A → B\nf a = g a\n";
    let found = definitions(text);
    assert_eq!(found.keys().collect::<Vec<_>>(), ["Kept", "f"]);
    assert_eq!(found["Kept"].lines.len(), 2);
    assert_eq!(found["f"].lines, ["abbrev pub f : A → B", "f a = g a"]);
}
