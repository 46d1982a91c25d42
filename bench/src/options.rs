//! The command line.

pub const USAGE: &str = "usage: bench [--rounds N] [--only SUBSTRING]
       bench --flat [--rounds N]
       bench --list [--only SUBSTRING]
       bench --case NAME --side ours|rust [--block N] [--repeat K]";

#[derive(Clone, Copy)]
pub enum SideName {
    Ours,
    Rust,
}

pub struct Options {
    pub rounds: Option<usize>,
    pub only: String,
    pub flat: bool,
    pub list: bool,
    pub case: Option<String>,
    pub side: SideName,
    /// Samples of a block; the case's first length if not given.
    pub block: Option<usize>,
    pub repeat: usize,
}

impl Options {
    pub fn parse(mut arguments: impl Iterator<Item = String>) -> Result<Self, String> {
        let mut options = Options {
            rounds: None,
            only: String::new(),
            flat: false,
            list: false,
            case: None,
            side: SideName::Ours,
            block: None,
            repeat: 1,
        };
        while let Some(flag) = arguments.next() {
            match flag.as_str() {
                "--flat" => options.flat = true,
                "--list" => options.list = true,
                _ => options.set(&flag, arguments.next())?,
            }
        }
        Ok(options)
    }

    fn set(&mut self, flag: &str, value: Option<String>) -> Result<(), String> {
        let value = value.ok_or_else(|| format!("{flag} wants a value"))?;
        match flag {
            "--rounds" => self.rounds = Some(count(&value)?),
            "--only" => self.only = value,
            "--case" => self.case = Some(value),
            "--side" => self.side = side(&value)?,
            "--block" => self.block = Some(count(&value)?),
            "--repeat" => self.repeat = count(&value)?,
            _ => return Err(format!("no option {flag}")),
        }
        Ok(())
    }
}

fn count(value: &str) -> Result<usize, String> {
    match value.parse() {
        Ok(count) if count > 0 => Ok(count),
        _ => Err(format!("{value} is no count")),
    }
}

fn side(value: &str) -> Result<SideName, String> {
    match value {
        "ours" => Ok(SideName::Ours),
        "rust" => Ok(SideName::Rust),
        _ => Err(format!("{value} is no side")),
    }
}
