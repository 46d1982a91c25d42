//! Why the tool stopped, in one line.

use std::error::Error;
use std::ffi::OsStr;
use std::fmt;
use std::io::{self, ErrorKind, Write};

/// Why the tool stopped.
#[derive(Clone, Debug, PartialEq, Eq)]
pub enum Fault {
    /// What is wrong. It is shown as one line whatever stands in a file or an argument.
    Told(String),
    /// Files that were compared differ, which is printed already.
    Differ,
    /// The reader of a pipe has gone, so there is nothing to tell and nobody to tell it to.
    ReaderGone,
}

impl Fault {
    /// What is wrong with the arguments.
    pub fn usage(what: impl fmt::Display) -> Fault {
        Fault::Told(format!("gauge: {what}; gauge --help tells more"))
    }

    /// What is wrong with a file as a whole: why it was not read or written, or what it has.
    pub fn file(file: impl AsRef<OsStr>, what: impl fmt::Display) -> Fault {
        Fault::Told(format!("{}: {what}", file.as_ref().to_string_lossy()))
    }

    /// What is wrong in one line of a file, counted from 1.
    pub fn line(file: impl AsRef<OsStr>, line: usize, what: impl fmt::Display) -> Fault {
        Fault::Told(format!(
            "{}:{line}: {what}",
            file.as_ref().to_string_lossy()
        ))
    }

    /// Why output to a file or a pipe did not go on.
    pub fn written(file: impl AsRef<OsStr>, why: io::Error) -> Fault {
        match why.kind() {
            ErrorKind::BrokenPipe => Fault::ReaderGone,
            _ => Fault::file(file, why),
        }
    }
}

impl fmt::Display for Fault {
    fn fmt(&self, f: &mut fmt::Formatter<'_>) -> fmt::Result {
        match self {
            Fault::Told(text) => f.write_str(&one_line(text)),
            Fault::Differ => f.write_str("the files differ"),
            Fault::ReaderGone => f.write_str("nobody reads the output"),
        }
    }
}

impl Error for Fault {}

fn one_line(text: &str) -> String {
    text.chars()
        .map(|c| if c.is_control() { '?' } else { c })
        .collect()
}

/// Writes one line to standard error. Where that is full or closed there is nowhere to say so.
pub fn tell(what: impl fmt::Display) {
    let _ = writeln!(io::stderr(), "{}", one_line(&what.to_string()));
}

/// The front of a text, so that a line stays short.
pub fn front(text: &str) -> String {
    const MOST: usize = 32;
    match text.char_indices().nth(MOST) {
        Some((end, _)) => format!("{}...", &text[..end]),
        None => text.to_string(),
    }
}

#[cfg(test)]
mod tests {
    use super::*;

    #[test]
    fn a_fault_is_one_line() {
        let fault = Fault::line("a\nb", 7, "c\rd");
        assert_eq!(fault.to_string(), "a?b:7: c?d");
    }

    #[test]
    fn a_long_text_is_cut() {
        assert_eq!(front("short"), "short");
        assert_eq!(front(&"é".repeat(33)), format!("{}...", "é".repeat(32)));
    }
}
