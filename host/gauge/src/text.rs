//! Bytes of a text: its marks, its comments, and the letters that no number has.

use std::fs::File;
use std::io::{self, Read};
use std::path::Path;

/// The bytes of a file that is small by nature: a tap sheet, and what text is made of.
pub fn read_bytes(path: &Path) -> io::Result<Vec<u8>> {
    const MOST: usize = 1 << 20;
    let mut bytes = Vec::new();
    File::open(path)?
        .take(MOST as u64 + 1)
        .read_to_end(&mut bytes)?;
    if bytes.len() > MOST {
        return Err(io::Error::other(format!("over {MOST} bytes")));
    }
    Ok(bytes)
}

/// The text of a file that is small by nature: settings, taps, a prototype.
pub fn read_small(path: &Path) -> io::Result<Vec<u8>> {
    let bytes = read_bytes(path)?;
    let text = without_mark(&bytes).map_err(io::Error::other)?;
    Ok(text.to_vec())
}

/// The bytes behind a byte order mark of UTF-8, which some editors set. One of UTF-16 is a fault.
pub fn without_mark(bytes: &[u8]) -> Result<&[u8], &'static str> {
    if bytes.starts_with(b"\xff\xfe") || bytes.starts_with(b"\xfe\xff") {
        return Err("is text in UTF-16; it must be saved as UTF-8");
    }
    Ok(bytes.strip_prefix(b"\xef\xbb\xbf").unwrap_or(bytes))
}

/// A line without its comment and the blanks around it.
pub fn content(line: &[u8]) -> &[u8] {
    let end = line.iter().position(|byte| *byte == b'#');
    line[..end.unwrap_or(line.len())].trim_ascii()
}

/// The same of a setting, where `works.sheet#3` names an entry: a `#` between what is no blank and a digit begins no comment.
pub fn setting(line: &[u8]) -> &[u8] {
    let names_entry = |at: usize| {
        let before = at.checked_sub(1).and_then(|at| line.get(at));
        let behind = line.get(at + 1);
        before.is_some_and(|byte| !byte.is_ascii_whitespace())
            && behind.is_some_and(u8::is_ascii_digit)
    };
    let end = (0..line.len()).find(|&at| line[at] == b'#' && !names_entry(at));
    line[..end.unwrap_or(line.len())].trim_ascii()
}

/// ` (it has ..)` for the first letter of a word that no number has and that is easily missed or mistaken.
pub fn strange(word: &str) -> String {
    let named = |c: char| match c {
        '\u{2212}' | '\u{2010}'..='\u{2015}' => Some("a Unicode minus"),
        '\u{a0}' | '\u{202f}' => Some("a no-break space"),
        '\u{2000}'..='\u{200b}' | '\u{3000}' => Some("a space of Unicode"),
        '\u{feff}' => Some("a byte order mark"),
        '\u{fffd}' => Some("bytes that are no UTF-8"),
        '"' | '\'' | '\u{2018}'..='\u{201f}' => Some("quotes"),
        '[' | ']' | '(' | ')' | '{' | '}' => Some("brackets"),
        c if c.is_control() => Some("a control character"),
        c if !c.is_ascii() => Some("a letter"),
        _ => None,
    };
    let found = word.chars().find_map(|c| named(c).map(|name| (c, name)));
    found.map_or(String::new(), |(c, name)| {
        format!(" (it has {name}, U+{:04X})", u32::from(c))
    })
}

#[cfg(test)]
mod tests {
    use super::*;

    #[test]
    fn a_mark_and_a_comment_are_left_out() {
        assert_eq!(without_mark(b"\xef\xbb\xbfx"), Ok(&b"x"[..]));
        assert!(without_mark(b"\xff\xfex\0").is_err());
        assert_eq!(content(b" 1 2 # two\r\n"), b"1 2");
        assert_eq!(content(b"#"), b"");
    }

    #[test]
    fn a_letter_that_no_number_has_is_named() {
        assert_eq!(strange("\u{2212}5"), " (it has a Unicode minus, U+2212)");
        assert_eq!(strange("1\u{a0}000"), " (it has a no-break space, U+00A0)");
        assert_eq!(strange("12x"), "");
    }
}
