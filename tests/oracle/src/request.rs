//! The command line.

use crate::case::Cases;
use crate::rng::Rng;

pub const USAGE: &str = "usage: oracle list --seed S --cases N [--only NAME] [--each K]
       oracle compare --seed S --cases N [--only NAME] [--samples M]";

pub enum Command {
    List,
    Compare,
}

/// Draws cases.
pub type Draw = fn(&mut Rng) -> Cases;

/// A converter's name, and where its cases are drawn.
#[derive(Clone, Copy)]
pub struct Converter {
    pub name: &'static str,
    /// Whether a list has cases of it.
    pub is_listed: bool,
    /// Those that every comparison begins with.
    pub fixed: fn() -> Cases,
    /// Those that a list has.
    pub cases: Draw,
    /// Those that only a comparison has.
    pub more: Draw,
    /// Those with many samples.
    pub long: Draw,
}

pub struct Request {
    pub command: Command,
    pub seed: u64,
    pub cases: usize,
    pub converters: Vec<Converter>,
    pub each: Option<usize>,
    pub samples: u64,
}

impl Request {
    pub fn of(mut words: impl Iterator<Item = String>, converters: &[Converter]) -> Option<Self> {
        let command = match words.next()?.as_str() {
            "list" => Command::List,
            "compare" => Command::Compare,
            _ => return None,
        };
        let (mut seed, mut cases, mut only, mut each) = (None, None, None, None);
        let mut samples = 0;
        while let Some(word) = words.next() {
            let value = words.next()?;
            match (word.as_str(), &command) {
                ("--seed", _) => seed = Some(value.parse().ok()?),
                ("--cases", _) => cases = Some(value.parse().ok()?),
                ("--only", _) => only = Some(value),
                ("--each", Command::List) => each = Some(value.parse().ok()?),
                ("--samples", Command::Compare) => samples = value.parse().ok()?,
                _ => return None,
            }
        }
        let lists = matches!(command, Command::List);
        let converters = wanted(converters, only.as_deref(), lists)?;
        Some(Request {
            command,
            seed: seed?,
            cases: cases?,
            converters,
            each,
            samples,
        })
    }
}

/// The one of that name, or all; for a list those that are listed.
fn wanted(converters: &[Converter], only: Option<&str>, lists: bool) -> Option<Vec<Converter>> {
    let is_wanted = |converter: &&Converter| {
        let is_named = only.is_none_or(|only| only == converter.name);
        is_named && (converter.is_listed || !lists)
    };
    let wanted: Vec<Converter> = converters.iter().filter(is_wanted).copied().collect();
    (!wanted.is_empty()).then_some(wanted)
}
