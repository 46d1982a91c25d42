//! Files, names and lines.

use std::fs;
use std::path::{Path, PathBuf};

pub fn read(path: &Path) -> Result<String, String> {
    fs::read_to_string(path).map_err(|why| format!("{}: {why}", path.display()))
}

/// The files of a folder in the order of their names.
pub fn files(folder: &Path) -> Result<Vec<PathBuf>, String> {
    let entries = fs::read_dir(folder).map_err(|why| format!("{}: {why}", folder.display()))?;
    let mut paths: Vec<PathBuf> = entries
        .filter_map(|entry| entry.ok().map(|entry| entry.path()))
        .filter(|path| path.is_file())
        .collect();
    paths.sort();
    Ok(paths)
}

/// The source without its comments.
pub fn code(source: &str) -> String {
    let lines = source
        .lines()
        .map(|line| line.split("//").next().unwrap_or(""));
    lines.collect::<Vec<_>>().join("\n")
}

/// Whether it can be a name of the sources.
pub fn is_name(word: &str) -> bool {
    !word.is_empty()
        && !word.starts_with(|c: char| c.is_ascii_digit())
        && word.chars().all(|c| c.is_ascii_alphanumeric() || c == '_')
}

/// cic_decimator as CicDecimator.
pub fn camel(snake: &str) -> String {
    snake.split('_').map(capitalised).collect()
}

/// TapsMultiple as taps_multiple.
pub fn snake(camel: &str) -> String {
    let mut out = String::new();
    for (place, c) in camel.chars().enumerate() {
        if c.is_ascii_uppercase() && place > 0 {
            out.push('_');
        }
        out.push(c.to_ascii_lowercase());
    }
    out
}

/// With a capital in front.
pub fn capitalised(word: &str) -> String {
    let mut chars = word.chars();
    match chars.next() {
        None => String::new(),
        Some(first) => first.to_ascii_uppercase().to_string() + chars.as_str(),
    }
}

/// Pieces behind one another, with `between` between them, in lines of at most `width`. The first line begins with `first`, the others with `next`.
pub fn filled(
    pieces: &[String],
    between: &str,
    (first, next): (&str, &str),
    width: usize,
) -> String {
    let mut lines = vec![first.to_string()];
    for (place, piece) in pieces.iter().enumerate() {
        let last = place + 1 == pieces.len();
        let piece = if last {
            piece.clone()
        } else {
            format!("{piece}{between}")
        };
        let line = lines.last_mut().expect("there is a line");
        if line.len() + piece.trim_end().len() <= width {
            line.push_str(&piece);
        } else {
            lines.push(format!("{next}{piece}"));
        }
    }
    let trimmed: Vec<&str> = lines.iter().map(|line| line.trim_end()).collect();
    trimmed.join("\n")
}

/// The first line in which two texts differ, from 1, and what stands there in each.
pub fn first_difference(a: &str, b: &str) -> Option<(usize, String, String)> {
    if a == b {
        return None;
    }
    let (mut left, mut right) = (a.lines(), b.lines());
    let mut line = 0;
    loop {
        line += 1;
        let pair = (left.next(), right.next());
        if pair.0 != pair.1 || pair == (None, None) {
            let said = |side: Option<&str>| side.unwrap_or("(no line)").to_string();
            return Some((line, said(pair.0), said(pair.1)));
        }
    }
}
