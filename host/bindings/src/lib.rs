//! What C, Rust, Python and JavaScript see of the archive, printed from what the proved crates declare: the functions of crates/gauge_line, the refusals of crates/refusal, and the limits of all.
//!
//! Eight files are printed whole. In the other headers and in refusal.rs the printed parts stand between marks ([`marks`]), beside text that is written by hand.

mod c;
mod constants;
mod declared;
mod exported;
mod js;
mod limits;
mod marks;
mod python;
mod refusals;
mod rust;
mod text;

use constants::Constants;
use exported::Exported;
use limits::Limits;
use marks::Parts;
use refusals::Refusals;
use std::fs;
use std::path::{Path, PathBuf};

/// The folders whose files can have marked parts.
const MARKED: [&str; 2] = ["include", "host/gauge-line/src"];

/// A tracked file as it should be.
pub struct Printed {
    /// From the top of the repository.
    pub path: PathBuf,
    /// All of it.
    pub text: String,
}

struct Sources {
    exported: Exported,
    limits: Limits,
    refusals: Refusals,
}

impl Sources {
    fn read(root: &Path) -> Result<Sources, String> {
        let constants = Constants::read(root)?;
        let exported = Exported::read(root, &constants)?;
        let limits = Limits::read(root, &constants, &exported)?;
        let refusals = Refusals::read(root, &limits)?;
        Ok(Sources {
            exported,
            limits,
            refusals,
        })
    }

    fn parts(&self) -> Result<Parts, String> {
        let mut parts = Parts::default();
        for function in self.exported.functions() {
            parts.add(
                "function",
                &function.name,
                c::function(function, &self.limits)?,
            );
        }
        for state in self.exported.states() {
            parts.add("state", &state.name, c::state(&state, &self.limits)?);
        }
        parts.add("refusals", "c", c::refusals(&self.refusals));
        parts.add("refusals", "rust", rust::refusals(&self.refusals));
        Ok(parts)
    }
}

/// Every printed file, those with marked parts too.
pub fn printed(root: &Path) -> Result<Vec<Printed>, String> {
    let sources = Sources::read(root)?;
    let mut parts = sources.parts()?;
    let mut files = Vec::new();
    for path in marked_files(root)? {
        let old = text::read(&root.join(&path))?;
        let text = parts
            .laid(&old)
            .map_err(|why| format!("{}: {why}", path.display()))?;
        files.push(Printed { path, text });
    }
    let whole = [
        ("include/gauge_limits.h", c::limits(&sources.limits)),
        (
            "include/gauge_raw.h",
            c::functions(&sources.exported, &sources.limits, &parts)?,
        ),
        (
            "host/gauge-line/src/limits.rs",
            rust::limits(&sources.limits),
        ),
        (
            "host/gauge-line/src/raw.rs",
            rust::functions(&sources.exported, &sources.limits)?,
        ),
        (
            "python/gauge_line/limits.py",
            python::limits(&sources.limits),
        ),
        (
            "python/gauge_line/raw.py",
            python::functions(&sources.exported, &sources.limits)?,
        ),
        (
            "python/gauge_line/refusals.py",
            python::refusals(&sources.refusals),
        ),
        (
            "host/page/src/declarations.js",
            js::declarations(&sources.exported, &sources.limits, &sources.refusals)?,
        ),
    ];
    files.extend(whole.map(|(path, text)| Printed {
        path: path.into(),
        text,
    }));
    parts.all_laid()?;
    Ok(files)
}

/// Writes the files that differ.
pub fn write(root: &Path) -> Result<String, String> {
    let files = printed(root)?;
    let mut written = 0;
    for file in &files {
        let path = root.join(&file.path);
        if fs::read_to_string(&path).is_ok_and(|old| old == file.text) {
            continue;
        }
        fs::write(&path, &file.text).map_err(|why| format!("{}: {why}", path.display()))?;
        written += 1;
    }
    Ok(format!("{} files, {written} of them written", files.len()))
}

/// Fails where a tracked file is not what is printed, and names the first line of each that differs.
pub fn check(root: &Path) -> Result<String, String> {
    let files = printed(root)?;
    let wrong: Vec<String> = files
        .iter()
        .filter_map(|file| difference(root, file))
        .collect();
    if wrong.is_empty() {
        return Ok(format!("{} files are as printed", files.len()));
    }
    Err(wrong.join("\n"))
}

fn difference(root: &Path, file: &Printed) -> Option<String> {
    let tracked = fs::read_to_string(root.join(&file.path)).unwrap_or_default();
    let (line, is, should) = text::first_difference(&tracked, &file.text)?;
    Some(format!(
        "{}:{line}: is\n    {is}\nand is printed as\n    {should}",
        file.path.display()
    ))
}

// In the order of their names, without those that are printed whole.
fn marked_files(root: &Path) -> Result<Vec<PathBuf>, String> {
    let mut files = Vec::new();
    for folder in MARKED {
        for path in text::files(&root.join(folder))? {
            if text::read(&path)?.contains(marks::BEGIN) {
                let name = path.file_name().expect("a file has a name");
                files.push(Path::new(folder).join(name));
            }
        }
    }
    Ok(files)
}

/// The names of the functions that the archive exports.
pub fn names(root: &Path) -> Result<Vec<String>, String> {
    let exported = Exported::read(root, &Constants::read(root)?)?;
    Ok(exported.functions().map(|one| one.name.clone()).collect())
}
