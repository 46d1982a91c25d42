//! The options behind a command: `--name value` or `--name=value`.

use crate::fault::{Fault, front};
use crate::nearest::did_you_mean;
use std::ffi::{OsStr, OsString};
use std::ops::RangeInclusive;
use std::os::unix::ffi::OsStrExt;

/// Samples a second that are told apart from a slip.
pub const RATES: RangeInclusive<f64> = 1e-6..=1e12;

/// The options that were given. Values are bytes as the caller wrote them: a path need not be UTF-8.
pub struct Options(Vec<(&'static str, OsString)>);

impl Options {
    /// The options of a command that knows these names. An argument that is no option is the value of `bare`.
    pub fn parse(
        arguments: &[OsString],
        known: &[&'static str],
        bare: &'static str,
    ) -> Result<Options, Fault> {
        Options::parse_bare(arguments, known, &[bare])
    }

    /// The same with a name for each argument that is no option, in their order; the last takes those that are too many.
    pub fn parse_bare(
        arguments: &[OsString],
        known: &[&'static str],
        bare: &[&'static str],
    ) -> Result<Options, Fault> {
        let mut options = Options(Vec::new());
        let mut rest = arguments.iter();
        while let Some(argument) = rest.next() {
            let next = bare.iter().find(|name| options.get(name).is_none());
            let next = next.or(bare.last()).copied().unwrap_or_default();
            let (name, value) = pair(argument, known, next)?;
            let value = value
                .or_else(|| rest.next().cloned())
                .ok_or_else(|| Fault::usage(format!("{name} without a value")))?;
            if options.get(name).is_some() {
                return Err(Fault::usage(format!("{name} is given twice")));
            }
            options.0.push((name, value));
        }
        Ok(options)
    }

    /// The value of an option, if it was given.
    pub fn get(&self, name: &str) -> Option<&OsStr> {
        let found = self.0.iter().find(|(given, _)| *given == name);
        found.map(|(_, value)| value.as_os_str())
    }

    /// The value of an option that is no path.
    pub fn text(&self, name: &str) -> Result<Option<&str>, Fault> {
        let Some(value) = self.get(name) else {
            return Ok(None);
        };
        let text = value.to_str();
        text.map(Some)
            .ok_or_else(|| wrong(name, value, "UTF-8 text"))
    }

    /// The value of an option that a command cannot do without.
    pub fn needed(&self, name: &str) -> Result<&OsStr, Fault> {
        self.get(name)
            .ok_or_else(|| Fault::usage(format!("{name} is missing")))
    }

    /// A whole number from `least` to `most`, if it was given.
    pub fn whole(&self, name: &str, least: usize, most: usize) -> Result<Option<usize>, Fault> {
        let Some(value) = self.get(name) else {
            return Ok(None);
        };
        let number = value.to_str().and_then(|text| text.parse().ok());
        match number.filter(|n| (least..=most).contains(n)) {
            Some(number) => Ok(Some(number)),
            None => Err(wrong(name, value, &format!("{least} to {most}"))),
        }
    }

    /// A count of 1 to 2^24.
    pub fn count(&self, name: &str, default: usize) -> Result<usize, Fault> {
        Ok(self.whole(name, 1, 1 << 24)?.unwrap_or(default))
    }

    /// `--rate`: samples a second, if it was given.
    pub fn rate(&self) -> Result<Option<f64>, Fault> {
        self.number("--rate", RATES, "a number of hertz above 0")
    }

    /// A number within a range, if it was given.
    pub fn number(
        &self,
        name: &str,
        range: RangeInclusive<f64>,
        wanted: &str,
    ) -> Result<Option<f64>, Fault> {
        let Some(value) = self.get(name) else {
            return Ok(None);
        };
        let number = value.to_str().and_then(|text| text.parse().ok());
        match number.filter(|number| range.contains(number)) {
            Some(number) => Ok(Some(number)),
            None => Err(wrong(name, value, wanted)),
        }
    }
}

fn wrong(name: &str, value: &OsStr, wanted: &str) -> Fault {
    let value = front(&value.to_string_lossy());
    Fault::usage(format!("{name} {value} is not {wanted}"))
}

// The name of an option, and its value where that stands in the same argument.
fn pair(
    argument: &OsStr,
    known: &[&'static str],
    bare: &'static str,
) -> Result<(&'static str, Option<OsString>), Fault> {
    let bytes = argument.as_bytes();
    if bytes == b"-" || !bytes.starts_with(b"-") {
        return Ok((bare, Some(argument.to_os_string())));
    }
    let mut parts = bytes.splitn(2, |byte| *byte == b'=');
    let given = parts.next().unwrap_or_default();
    let value = parts
        .next()
        .map(|value| OsStr::from_bytes(value).to_os_string());
    match known.iter().find(|name| name.as_bytes() == given) {
        Some(name) => Ok((name, value)),
        None => {
            let given = String::from_utf8_lossy(given);
            let hint = did_you_mean(&given, known);
            Err(Fault::usage(format!(
                "no option {} here{hint}",
                front(&given)
            )))
        }
    }
}

#[cfg(test)]
mod tests {
    use super::*;

    fn parsed(arguments: &[&str]) -> Result<Options, Fault> {
        let arguments: Vec<OsString> = arguments.iter().map(OsString::from).collect();
        Options::parse(&arguments, &["--in", "--piece", "--rate"], "--in")
    }

    #[test]
    fn pairs_are_found_by_name() {
        let options = parsed(&["--piece", "3", "--in", "-"]).unwrap();
        assert_eq!(options.get("--in"), Some(OsStr::new("-")));
        assert_eq!(options.count("--piece", 9), Ok(3));
        assert!(options.needed("--out").is_err());
        let options = parsed(&["--piece=3", "a=b", "--rate=0.5"]).unwrap();
        assert_eq!(options.get("--in"), Some(OsStr::new("a=b")));
        assert_eq!(options.count("--piece", 9), Ok(3));
        assert_eq!(options.rate(), Ok(Some(0.5)));
    }

    #[test]
    fn what_is_no_pair_is_a_fault() {
        for arguments in [
            &["--x"][..],
            &["--in"],
            &["--in", "a", "--in", "b"],
            &["a", "b"],
            &["--in=a", "b"],
        ] {
            assert!(parsed(arguments).is_err());
        }
        for count in ["0", "16777217", "-1", "x", ""] {
            let options = parsed(&["--piece", count]).unwrap();
            assert!(options.count("--piece", 9).is_err());
        }
        for rate in ["0", "-1", "inf", "nan", "x", ""] {
            assert!(parsed(&["--rate", rate]).unwrap().rate().is_err());
        }
    }

    #[test]
    fn an_option_that_is_near_is_named() {
        let fault = parsed(&["--peice", "3"]).err().unwrap().to_string();
        let said = "gauge: no option --peice here; did you mean --piece?; ";
        assert!(fault.starts_with(said), "{fault}");
    }
}
