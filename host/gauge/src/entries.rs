//! The `name = value` lines of a settings file.

use crate::fault::{Fault, front};
use crate::nearest::did_you_mean;
use crate::text::{setting, strange};
use std::borrow::Cow;
use std::ffi::OsStr;
use std::os::unix::ffi::OsStrExt;
use std::path::{Path, PathBuf};

/// Every name that a settings file may set.
pub const NAMES: [&str; 13] = [
    "stages",
    "r",
    "thinning",
    "factor",
    "taps",
    "depth",
    "phases",
    "phase_taps",
    "phase",
    "step",
    "prototype",
    "prototype_rows",
    "rate",
];

/// A name that was set, its value and the line where it stands. The value is bytes: it may name a file, and names need not be UTF-8.
pub struct Entry {
    pub name: &'static str,
    pub value: Vec<u8>,
    pub line: usize,
}

impl Entry {
    /// The value as text, for a number or a fault.
    pub fn text(&self) -> Cow<'_, str> {
        String::from_utf8_lossy(&self.value)
    }
}

/// The entries of one file.
pub struct Entries {
    pub file: PathBuf,
    entries: Vec<Entry>,
    lines: usize,
}

impl Entries {
    /// Of a file that has no such lines.
    pub fn none(file: &Path) -> Entries {
        Entries {
            file: file.to_path_buf(),
            entries: Vec::new(),
            lines: 0,
        }
    }

    /// The entries of a text. A name that is unknown or set twice is a fault.
    pub fn parse(file: &Path, text: &[u8]) -> Result<Entries, Fault> {
        let lines = text.strip_suffix(b"\n").unwrap_or(text);
        let lines: Vec<&[u8]> = lines.split(|byte| *byte == b'\n').collect();
        let mut all = Entries {
            lines: lines.len(),
            ..Entries::none(file)
        };
        for (at, line) in lines.into_iter().enumerate() {
            let line = setting(line);
            if !line.is_empty() {
                all.add(line, at + 1)?;
            }
        }
        Ok(all)
    }

    fn add(&mut self, text: &[u8], line: usize) -> Result<(), Fault> {
        let fault = |what: String| Fault::line(&self.file, line, what);
        let Some(sign) = text.iter().position(|byte| *byte == b'=') else {
            let text = String::from_utf8_lossy(text);
            let (text, has) = (front(&text), strange(&text));
            return Err(fault(format!("{text} is not name = value{has}")));
        };
        let given = String::from_utf8_lossy(text[..sign].trim_ascii());
        let name = NAMES
            .into_iter()
            .find(|known| *known == given)
            .ok_or_else(|| fault(no_setting(&given)))?;
        if let Some(first) = self.get(name) {
            return Err(fault(format!("{name} is set on line {} too", first.line)));
        }
        let value = text[sign + 1..].trim_ascii().to_vec();
        self.entries.push(Entry { name, value, line });
        Ok(())
    }

    /// The entry of a name.
    pub fn get(&self, name: &str) -> Option<&Entry> {
        self.entries.iter().find(|entry| entry.name == name)
    }

    /// The file of this name beside the settings.
    pub fn beside(&self, name: &[u8]) -> PathBuf {
        self.file.with_file_name(OsStr::from_bytes(name))
    }

    /// What is wrong with a setting, told where it stands; a setting that is missing is told at the end of the file.
    pub fn fault(&self, name: &str, what: impl std::fmt::Display) -> Fault {
        match self.get(name) {
            Some(entry) => {
                let said = format!("{name} = {}: {what}", front(&entry.text()));
                Fault::line(&self.file, entry.line, said)
            }
            None => Fault::line(&self.file, self.lines, format!("no {name}: {what}")),
        }
    }

    /// The names among these that are set although nothing looks at them, each told where it stands.
    pub fn unseen(&self, names: &[&str], without: &str) -> Vec<Fault> {
        let entries = names.iter().filter_map(|name| self.get(name));
        let said = |entry: &Entry| {
            let name = entry.name;
            let said = format!("warning: {name} is not looked at without {without}");
            Fault::line(&self.file, entry.line, said)
        };
        entries.map(said).collect()
    }
}

fn no_setting(given: &str) -> String {
    let hint = did_you_mean(given, &NAMES);
    let (given, has) = (front(given), strange(given));
    let names = NAMES.join(", ");
    format!("no setting {given}{has}{hint}; they are {names}")
}
