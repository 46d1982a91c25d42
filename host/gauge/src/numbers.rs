//! Lists of numbers: taps and prototypes, inline or in a file of their own.

use crate::entries::Entries;
use crate::fault::{Fault, front};
use crate::sheet::SheetFile;
use crate::text::{content, read_small, strange};
use std::fmt::Display;
use std::path::{Path, PathBuf};
use std::str::FromStr;

/// A number that may stand in a list.
pub trait Number: FromStr + Display {
    /// What such a number is, for a fault.
    const KIND: &'static str;

    /// How many bytes it takes in a tap sheet.
    const BYTES: usize;

    /// The number that so many bytes are, little-endian.
    fn of(bytes: &[u8]) -> Self;

    /// Its bytes in a tap sheet.
    fn bytes(&self) -> Vec<u8>;

    /// Whether the line can calculate with it.
    fn is_usable(&self) -> bool;
}

impl Number for i16 {
    const KIND: &'static str = "a whole number of -32768 to 32767";
    const BYTES: usize = 2;

    fn of(bytes: &[u8]) -> i16 {
        i16::from_le_bytes([bytes[0], bytes[1]])
    }

    fn bytes(&self) -> Vec<u8> {
        self.to_le_bytes().to_vec()
    }

    fn is_usable(&self) -> bool {
        true
    }
}

impl Number for f32 {
    const KIND: &'static str = "a finite number";
    const BYTES: usize = 4;

    fn of(bytes: &[u8]) -> f32 {
        f32::from_le_bytes([bytes[0], bytes[1], bytes[2], bytes[3]])
    }

    fn bytes(&self) -> Vec<u8> {
        self.to_le_bytes().to_vec()
    }

    fn is_usable(&self) -> bool {
        self.is_finite()
    }
}

/// The numbers of a list, and the file that they stand in where they have one of their own.
pub struct List<T> {
    pub numbers: Vec<T>,
    pub file: Option<PathBuf>,
}

/// The numbers of a setting's value: a list where it begins with a digit, a sign or a point, else the name of a file beside the settings.
pub fn listed<T: Number>(entries: &Entries, name: &str, value: &[u8]) -> Result<List<T>, Fault> {
    let text = String::from_utf8_lossy(value);
    let fault = |what: String| entries.fault(name, what);
    if value.is_empty() {
        let what = format!("no numbers; a line without {name} has no such entry");
        return Err(fault(what));
    }
    if is_inline(value) {
        let numbers = words(&text).map_err(fault)?;
        return Ok(List {
            numbers,
            file: None,
        });
    }
    if text.starts_with(|c: char| !strange(&c.to_string()).is_empty()) {
        let has = strange(&text);
        let what =
            format!("neither numbers nor the name of a file{has}; a file of that name is ./");
        return Err(fault(what + &front(&text)));
    }
    let (file, entry) = entry_of(value);
    let file = entries.beside(file);
    let numbers = match entry {
        Some(k) => in_sheet(&file, k)?,
        None => {
            let text = read_small(&file).map_err(|why| fault(why.to_string()))?;
            in_text(&file, &text, &format!("a line without {name}"))?
        }
    };
    Ok(List {
        numbers,
        file: Some(file),
    })
}

// The file and the entry that `works.sheet#3` names; no entry where that is all of a file's name.
fn entry_of(value: &[u8]) -> (&[u8], Option<usize>) {
    let Some(at) = value.iter().rposition(|byte| *byte == b'#') else {
        return (value, None);
    };
    let number = std::str::from_utf8(&value[at + 1..]);
    match number.ok().and_then(|digits| digits.parse().ok()) {
        Some(k) => (&value[..at], Some(k)),
        None => (value, None),
    }
}

/// The numbers of a text. There must be some: what can do without them does not name the file.
pub fn in_text<T: Number>(file: &Path, text: &[u8], without: &str) -> Result<Vec<T>, Fault> {
    let numbers = lines(file, text)?;
    if numbers.is_empty() {
        let what = format!("no numbers; {without} does not name it");
        return Err(Fault::file(file, what));
    }
    Ok(numbers)
}

/// The numbers of an entry of a tap sheet.
pub fn in_sheet<T: Number>(file: &Path, k: usize) -> Result<Vec<T>, Fault> {
    let sheet = SheetFile::read(file)?;
    let bytes = sheet.entry(k)?;
    let fault = |what: String| Fault::file(file, format_args!("entry {k}: {what}"));
    if bytes.is_empty() {
        return Err(fault("it is empty".to_string()));
    }
    if bytes.len() % T::BYTES != 0 {
        let (n, each) = (bytes.len(), T::BYTES);
        return Err(fault(format!(
            "{n} bytes are no numbers of {each} bytes each"
        )));
    }
    let numbers: Vec<T> = bytes.chunks_exact(T::BYTES).map(T::of).collect();
    match numbers.iter().position(|number| !number.is_usable()) {
        Some(at) => Err(fault(format!(
            "number {at}, {}, is not {}",
            numbers[at],
            T::KIND
        ))),
        None => Ok(numbers),
    }
}

fn is_inline(value: &[u8]) -> bool {
    match value {
        [b'.', next, ..] => next.is_ascii_digit(),
        [first, ..] => first.is_ascii_digit() || *first == b'+' || *first == b'-',
        [] => false,
    }
}

// The numbers of a file, any count of them a line.
fn lines<T: Number>(file: &Path, text: &[u8]) -> Result<Vec<T>, Fault> {
    let mut all = Vec::new();
    for (at, line) in text.split(|byte| *byte == b'\n').enumerate() {
        let line = String::from_utf8_lossy(content(line));
        let numbers = words(&line).map_err(|what| Fault::line(file, at + 1, what))?;
        all.extend(numbers);
    }
    Ok(all)
}

// The numbers of a line, with blanks or commas between them, or what is wrong with one.
fn words<T: Number>(line: &str) -> Result<Vec<T>, String> {
    line.split([' ', '\t', ',', '\r'])
        .filter(|word| !word.is_empty())
        .map(|word| {
            let number = word.parse().ok().filter(T::is_usable);
            number.ok_or_else(|| format!("{} is not {}{}", front(word), T::KIND, strange(word)))
        })
        .collect()
}

#[cfg(test)]
mod tests {
    use super::*;

    #[test]
    fn numbers_stand_with_blanks_or_commas_between_them() {
        assert_eq!(words::<i16>("1, -2\t3"), Ok(vec![1, -2, 3]));
        assert_eq!(words::<f32>(".5 -.25"), Ok(vec![0.5, -0.25]));
    }

    #[test]
    fn a_number_out_of_its_range_is_named() {
        let said = words::<i16>("1 32768").unwrap_err();
        assert_eq!(said, "32768 is not a whole number of -32768 to 32767");
        let said = words::<f32>("1e99").unwrap_err();
        assert_eq!(said, "1e99 is not a finite number");
    }

    #[test]
    fn a_file_of_numbers_has_comments_and_line_numbers() {
        let file = Path::new("f");
        assert_eq!(
            lines::<i16>(file, b"# two\n1 2\r\n\n3 # last"),
            Ok(vec![1, 2, 3])
        );
        let fault = lines::<i16>(file, b"1\nx").unwrap_err();
        assert!(fault.to_string().starts_with("f:2: x is not"));
    }
}
