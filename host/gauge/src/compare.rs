//! `gauge compare`: the first level in which two files of levels differ, by bits.

use crate::fault::{Fault, front};
use crate::format::Format;
use crate::options::Options;
use crate::target::Target;
use std::ffi::{OsStr, OsString};
use std::fs::File;
use std::io::{self, BufRead, BufReader, ErrorKind, Read};

/// Prints the first level that differs, with its bits; [`Fault::Differ`] then.
pub fn compare(arguments: &[OsString]) -> Result<(), Fault> {
    const FILES: [&str; 2] = ["the first file", "the second file"];
    let options = Options::parse_bare(arguments, &["--format"], &FILES)?;
    let format = options.text("--format")?.map(Format::named).transpose()?;
    let mut first = Source::open(options.needed(FILES[0])?, format)?;
    let mut second = Source::open(options.needed(FILES[1])?, format)?;
    let found = difference(&mut first, &mut second)?;
    let mut out = Target::create("-")?;
    out.write(found.told.as_bytes())?;
    out.finish()?;
    match found.same {
        true => Ok(()),
        false => Err(Fault::Differ),
    }
}

// What was found of two files.
struct Found {
    same: bool,
    told: String,
}

// Level by level, up to the first that is not the same.
fn difference(first: &mut Source, second: &mut Source) -> Result<Found, Fault> {
    let mut count = 0u64;
    loop {
        let told = match (first.next()?, second.next()?) {
            (Some(a), Some(b)) if is_same(a, b) => {
                count += 1;
                continue;
            }
            (None, None) => {
                let told = format!("{}, the same in both files\n", levels(count));
                return Ok(Found { same: true, told });
            }
            (Some(a), Some(b)) => format!(
                "level {count}, counted from 0: {} has {a} ({:#010x}), {} has {b} ({:#010x})\n",
                first.name(),
                a.to_bits(),
                second.name(),
                b.to_bits()
            ),
            (None, Some(_)) => ended(first, second, count),
            (Some(_), None) => ended(second, first, count),
        };
        return Ok(Found { same: false, told });
    }
}

// Two levels count as the same where their bits are, all NaNs being one: -0 is not 0.
fn is_same(a: f32, b: f32) -> bool {
    a.to_bits() == b.to_bits() || a.is_nan() && b.is_nan()
}

fn ended(short: &Source, long: &Source, count: u64) -> String {
    format!(
        "{} ends after {}, the same in {}, which has more\n",
        short.name(),
        levels(count),
        long.name()
    )
}

fn levels(count: u64) -> String {
    match count {
        1 => "1 level".to_string(),
        _ => format!("{count} levels"),
    }
}

// A file of levels, read one by one.
struct Source {
    file: OsString,
    reader: Box<dyn BufRead>,
    format: Option<Format>,
    lines: usize,
}

impl Source {
    fn open(file: &OsStr, format: Option<Format>) -> Result<Source, Fault> {
        let reader: Box<dyn BufRead> = if file == "-" {
            Box::new(io::stdin().lock())
        } else {
            let opened = File::open(file).map_err(|why| Fault::file(file, why))?;
            Box::new(BufReader::new(opened))
        };
        Ok(Source {
            file: file.to_os_string(),
            reader,
            format,
            lines: 0,
        })
    }

    fn name(&self) -> String {
        self.file.to_string_lossy().into_owned()
    }

    fn next(&mut self) -> Result<Option<f32>, Fault> {
        if self.format == Some(Format::Raw) {
            return self.next_raw();
        }
        while let Some(line) = self.line()? {
            // The head of CSV, which names the format where no option does.
            if self.lines == 1 && line.ends_with(",level") {
                self.format = self.format.or(Some(Format::Csv));
                continue;
            }
            let cell = match self.format {
                Some(Format::Csv) => line.rsplit(',').next().unwrap_or_default(),
                _ => &line,
            };
            let level = cell.trim().parse().map_err(|_| {
                let what = format!("{} is no level", front(cell));
                Fault::line(&self.file, self.lines, what)
            })?;
            return Ok(Some(level));
        }
        Ok(None)
    }

    // The next line that has something in it.
    fn line(&mut self) -> Result<Option<String>, Fault> {
        loop {
            let mut line = Vec::new();
            let read = self.reader.read_until(b'\n', &mut line);
            if read.map_err(|why| Fault::file(&self.file, why))? == 0 {
                return Ok(None);
            }
            self.lines += 1;
            let text = String::from_utf8_lossy(line.trim_ascii()).into_owned();
            if !text.is_empty() {
                return Ok(Some(text));
            }
        }
    }

    fn next_raw(&mut self) -> Result<Option<f32>, Fault> {
        let mut bytes = [0; 4];
        let more = self.reader.fill_buf().map(|bytes| !bytes.is_empty());
        if !more.map_err(|why| Fault::file(&self.file, why))? {
            return Ok(None);
        }
        self.reader
            .read_exact(&mut bytes)
            .map_err(|why| match why.kind() {
                ErrorKind::UnexpectedEof => Fault::file(&self.file, "ends inside a level"),
                _ => Fault::file(&self.file, why),
            })?;
        Ok(Some(f32::from_le_bytes(bytes)))
    }
}

#[cfg(test)]
mod tests {
    use super::is_same;

    #[test]
    fn the_sign_of_zero_counts_and_the_bits_of_a_nan_do_not() {
        assert!(is_same(0.5, 0.5));
        assert!(is_same(f32::NAN, f32::from_bits(0xffc0_0001)));
        assert!(!is_same(0.0, -0.0));
        assert!(!is_same(f32::NAN, f32::INFINITY));
    }
}
