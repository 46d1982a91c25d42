//! docs/believed.md is closed: what the line's contracts rest on, by the `use` lines of specs/, is
//! what its tables name, and the other files of specs/ stand in its last two tables, those of
//! specs/inner/ in the last. What the outputs and the refusals of openings rest on is named definition
//! by definition. Nothing that is believed needs specs/inner/.
mod closure;
mod page;
mod reach;
mod tree;
mod uses;

use closure::{begin, closure, inner_believed, inner_specs, outer_specs};
use page::{differing, first_names, pairs};
use reach::reached;
use std::collections::BTreeSet;
use std::path::Path;
use tree::{read, top};
use uses::{Module, module};

/// The tables of definitions: the heading, and the file and name that the table begins with.
const REACHED: [(&str, &str, &str); 3] = [
    ("The outputs, by definitions", "line/Outputs", "Outputs"),
    (
        "The count of cut values, by definitions",
        "line/Outputs",
        "held_cuts",
    ),
    (
        "The openings, by definitions",
        "line/Openings",
        "opening_number_of",
    ),
];

/// Where the page's tables of files are not what the line rests on.
fn wrong_files(top: &Path, page: &str) -> Vec<String> {
    let (mut specs, mut proofs) = (BTreeSet::new(), BTreeSet::new());
    let (mut declared, mut kit) = (BTreeSet::new(), BTreeSet::new());
    for each in closure(top, begin(top)) {
        match each {
            Module::Specs(name) => specs.insert(name),
            Module::Proofs(name) => proofs.insert(name),
            Module::Declared(file, name) => declared.insert(format!("{file} {name}")),
            Module::Kit(name) => kit.insert(name),
        };
    }
    let beside: BTreeSet<String> = outer_specs(top).difference(&specs).cloned().collect();
    let mut all = differing("specs", &specs, &first_names(page, "The line"));
    all.extend(differing(
        "declaration",
        &declared,
        &pairs(page, "Declarations"),
    ));
    all.extend(differing(
        "proofs",
        &proofs,
        &first_names(page, "Records of proofs"),
    ));
    all.extend(differing("kit", &kit, &first_names(page, "The kit")));
    all.extend(differing(
        "beside",
        &beside,
        &first_names(page, "Beside the line"),
    ));
    all.extend(differing(
        "inside",
        &inner_specs(top),
        &first_names(page, "Inside the library"),
    ));
    all
}

/// Where its tables of definitions are not what these definitions rest on.
fn wrong_definitions(top: &Path, page: &str) -> Vec<String> {
    let each = REACHED.iter().map(|(heading, file, name)| {
        differing(heading, &reached(top, file, name), &pairs(page, heading))
    });
    each.flatten().collect()
}

fn page() -> String {
    read(&top().join("docs/believed.md"))
}

#[test]
fn the_tables_of_files_are_closed() {
    let wrongs = wrong_files(&top(), &page());
    assert!(wrongs.is_empty(), "docs/believed.md\n{}", wrongs.join("\n"));
}

#[test]
fn the_tables_of_definitions_are_closed() {
    let wrongs = wrong_definitions(&top(), &page());
    assert!(wrongs.is_empty(), "docs/believed.md\n{}", wrongs.join("\n"));
}

#[test]
fn nothing_believed_needs_inner() {
    let wrongs = inner_believed(&top());
    assert!(wrongs.is_empty(), "{}", wrongs.join("\n"));
}

#[test]
fn a_missing_row_is_found() {
    let page = page();
    for name in [
        "`theory/Wrap`",
        "`chain/src/settings.rt`",
        "`Rattle.std.specs.Float`",
        "`sheet/Sheet`",
        "`plan/inner/Ticking`",
    ] {
        let is_row = |line: &&str| !line.starts_with(&format!("| {name} |"));
        let without: Vec<&str> = page.lines().filter(is_row).collect();
        assert!(without.len() < page.lines().count(), "{name} is in no row");
        assert!(
            !wrong_files(&top(), &without.join("\n")).is_empty(),
            "{name}"
        );
    }
    let without = page.replace("`moving_sum`", "moving_sum");
    assert!(!wrong_definitions(&top(), &without).is_empty());
}

#[test]
fn modules_are_read() {
    let specs = Module::Specs("line/Outputs".to_string());
    assert_eq!(module("Rattle.line.specs.Outputs"), specs);
    let proofs = Module::Proofs("theory/proofs/FeedLoop".to_string());
    assert_eq!(module("Rattle.theory.proofs.FeedLoop"), proofs);
    let kit = "Rattle.std.specs.Int";
    assert_eq!(module(kit), Module::Kit(kit.to_string()));
    let declared = Module::Declared("refusal/src/lib.rt".to_string(), "Refusal".to_string());
    let path = "Rattle.refusal.specs.declared.Refusal.TheVariants";
    assert_eq!(module(path), declared);
}
