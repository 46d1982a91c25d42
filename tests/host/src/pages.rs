//! What the pages say: links, paths and make targets are there, every file of specs/ is named, every quotation of crates/ stands in its file, and the commands of
//! docs/reading-the-proofs.md print what stands behind them.

use crate::support::page::{Example, blocks, examples};
use crate::support::{command, files, filtered, printed, read, root, same, skipped, target};
use std::path::PathBuf;

const FOLDERS: [&str; 8] = [
    "crates", "host", "include", "python", "examples", "tests", "bench", "docs",
];

/// The pages at the top and those of docs/.
pub fn pages() -> Vec<String> {
    let mut pages = files("", ".md");
    pages.extend(files("docs", ".md"));
    pages
        .iter()
        .map(|path| path.display().to_string())
        .collect()
}

/// What stands in the text between each `before` and the next `after`.
pub fn between<'a>(text: &'a str, before: &str, after: &str) -> Vec<&'a str> {
    let behind = text.split(before).skip(1);
    behind
        .filter_map(|rest| rest.split_once(after).map(|(found, _)| found))
        .collect()
}

// From the page's own folder; another page's heading or an address elsewhere is no file.
#[test]
fn links() {
    let beside = ["bench/README.md", "tests/oracle/README.md"].map(str::to_string);
    for page in pages().into_iter().chain(beside) {
        let folder = root().join(&page);
        let folder = folder.parent().expect("a page has a folder");
        for link in between(&read(&page), "](", ")") {
            let is_file = !link.contains(['#', ':']);
            assert!(
                !is_file || folder.join(link).exists(),
                "{page}: no file {link}"
            );
        }
    }
}

// From the top of the repository, in backticks. A part in capitals alone, as in crates/NAME, stands for any name.
#[test]
fn paths() {
    let plain = |c: char| c.is_ascii_alphanumeric() || "_./-".contains(c);
    let any = |part: &str| !part.is_empty() && part.chars().all(|c| c.is_ascii_uppercase());
    for page in pages() {
        for path in read(&page).split('`') {
            let top = path.split_once('/').map_or("", |(top, _)| top);
            if FOLDERS.contains(&top) && path.chars().all(plain) && !path.split('/').any(any) {
                assert!(root().join(path).exists(), "{page}: no file {path}");
            }
        }
    }
}

// Each file of specs/ is named where it is said what one has to believe: `Name.antt`, or `crate/Name`.
#[test]
fn every_file_of_specs_is_named() {
    let mut said = read("README.md");
    said.extend(files("docs", "believed.md").iter().map(read));
    let mut count = 0;
    for file in specs() {
        let name = file
            .file_stem()
            .expect("a file has a name")
            .to_string_lossy();
        let own = file
            .iter()
            .nth(1)
            .expect("a crate has a name")
            .to_string_lossy();
        let forms = [
            format!("`{name}.antt`"),
            format!("/{name}.antt`"),
            format!("`{own}/{name}`"),
            format!("`{own}/inner/{name}`"),
        ];
        let named = forms.iter().any(|form| said.contains(form));
        assert!(
            named || name == "Lib" || name == "inner",
            "no page names {}",
            file.display()
        );
        count += 1;
    }
    assert!(count > 0);
}

// The files of specs/ of every crate.
fn specs() -> Vec<PathBuf> {
    let folders = files("crates", "")
        .into_iter()
        .flat_map(|folder| [folder.join("specs"), folder.join("specs/inner")]);
    let folders = folders.filter(|folder| root().join(folder).is_dir());
    folders
        .flat_map(|folder| files(&folder.to_string_lossy(), ".antt"))
        .collect()
}

#[test]
fn make_targets() {
    let makefile = read("Makefile");
    let is_target = |name: &str| {
        makefile
            .lines()
            .any(|line| line.starts_with(&format!("{name}:")))
    };
    let word = |rest: &str| {
        let end = rest
            .find(|c: char| !c.is_ascii_lowercase() && c != '-')
            .unwrap_or(rest.len());
        rest[..end].to_string()
    };
    let mut count = 0;
    for page in pages() {
        let text = read(&page);
        let quoted = text.split("`make ").skip(1).map(word);
        let listed = text
            .lines()
            .filter_map(|line| line.strip_prefix("    make "))
            .map(word);
        for name in quoted.chain(listed).filter(|name| !name.is_empty()) {
            assert!(is_target(&name), "{page}: no make {name}");
            count += 1;
        }
    }
    assert!(count > 0);
}

// A block whose first line names a file of crates/ behind its language stands in that file, line by line but for blanks in front; a line `..` passes over some of the file.
#[test]
fn quotations() {
    let mut count = 0;
    for page in pages() {
        for block in blocks(&page) {
            let Some((_, file)) = block
                .info
                .split_once(' ')
                .filter(|(_, file)| file.starts_with("crates/"))
            else {
                continue;
            };
            assert!(
                stands(&block.text, &read(file)),
                "{page}: not in {file}:\n{}",
                block.text
            );
            count += 1;
        }
    }
    assert!(count > 0);
}

fn stands(quoted: &str, text: &str) -> bool {
    let quoted: Vec<&str> = quoted.lines().map(str::trim_start).collect();
    let lines: Vec<&str> = text.lines().map(str::trim_start).collect();
    let mut rest = lines.as_slice();
    for piece in quoted
        .split(|line| *line == "..")
        .filter(|piece| !piece.is_empty())
    {
        let Some(at) = rest.windows(piece.len()).position(|window| window == piece) else {
            return false;
        };
        rest = &rest[at + piece.len()..];
    }
    true
}

#[test]
fn a_quotation_is_found_only_where_it_stands() {
    let text = "a\n  b\nc\nd\n";
    assert!(stands("  a\nb\n", text) && stands("a\n..\nd\n", text) && stands("..\nc\n", text));
    assert!(!stands("a\nc\n", text) && !stands("c\n..\nb\n", text) && !stands("b\n..\nb\n", text));
}

// A block `sh run` is run as it stands; a block `sh CRATE/EDIT` does by hand what that edit does.
#[test]
fn commands_of_reading_the_proofs() {
    let shown = examples("docs/reading-the-proofs.md", |info| info.starts_with("sh "));
    assert!(!shown.is_empty());
    for example in &shown {
        match example
            .info
            .strip_prefix("sh ")
            .and_then(|name| name.split_once('/'))
        {
            Some((name, edit)) => by_hand(example, name, edit),
            None => {
                assert_eq!(example.info, "sh run");
                same(
                    &example.text,
                    &example.prints,
                    &printed(command("bash").args(["-c", &example.text])),
                );
            }
        }
    }
}

// The block changes what the edit changes and takes it back, and what it shows of the check stands in the log of the edit's try.
fn by_hand(example: &Example, name: &str, edit: &str) {
    let lines: Vec<&str> = example.text.lines().collect();
    let [change, check, undo] = lines[..] else {
        panic!("three commands are wanted:\n{}", example.text);
    };
    let file = undo
        .strip_prefix("git checkout -q ")
        .expect("the last command takes the change back");
    assert!(
        change.ends_with(&format!(" {file}")),
        "{undo} does not undo {change}"
    );
    let changed = printed(command("bash").args(["-c", &change.replacen(" -i ", " ", 1)]));
    same(change, &edited(name, edit), &changed);
    let shown = check.strip_prefix(&format!("(cd crates/{name} && rt check) 2>&1 | "));
    let shown = shown.unwrap_or_else(|| panic!("{check} is no check of {name}"));
    let (_, log) = edit_and_log(name, edit);
    if !log.exists() {
        return skipped(
            "pages",
            &format!("{name}/{edit} was not tried here, so what is printed of it is not compared"),
        );
    }
    same(
        shown,
        &example.prints,
        &filtered(command("bash").args(["-c", shown]), &read(log)),
    );
}

// An edit, of must-fail/ or of edits/, and the log of its try by tests/edits.
fn edit_and_log(name: &str, edit: &str) -> (PathBuf, PathBuf) {
    let folder = root().join("crates").join(name);
    let places = ["must-fail", "edits"].map(|place| folder.join(place).join(edit));
    let file = places.map(|place| place.with_extension("edit"));
    let file = file.into_iter().find(|file| file.exists());
    let log = target().join("edits").join(name).join(edit);
    (
        file.unwrap_or_else(|| panic!("{name} has no edit {edit}")),
        log.with_extension("log"),
    )
}

// The file that an edit changes, as the edit makes it: each pair applies to what the earlier ones made.
fn edited(name: &str, edit: &str) -> String {
    let text = read(edit_and_log(name, edit).0);
    let fields = |key: &'static str| {
        let found: Vec<&str> = text
            .lines()
            .filter_map(|line| line.strip_prefix(key))
            .collect();
        assert!(!found.is_empty(), "{name}/{edit} has no {key}");
        found
    };
    let [file] = fields("file: ")[..] else {
        panic!("{name}/{edit} changes more than one file");
    };
    let file = read(format!("crates/{name}/{file}"));
    let pairs = fields("old: ").into_iter().zip(fields("new: "));
    pairs.fold(file, |made, (old, new)| made.replacen(old, new, 1))
}
