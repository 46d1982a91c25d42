//! The named constants of the crates, and what a name means in a file of theirs.

use crate::text;
use std::collections::BTreeMap;
use std::path::Path;

/// What a file of Rattle can name: the crate it is in, and the constants of others that it uses, by the name they have there.
#[derive(Clone, Default)]
struct File {
    crate_name: String,
    used: BTreeMap<String, (String, String)>,
}

#[derive(Clone)]
struct Constant {
    number: String,
    value: String,
    file: File,
}

/// The constants of every crate, by crate and name.
pub struct Constants {
    named: BTreeMap<(String, String), Vec<Constant>>,
}

/// A file to look names up from.
pub struct Scope<'a> {
    constants: &'a Constants,
    file: File,
}

impl Constants {
    pub fn read(root: &Path) -> Result<Constants, String> {
        let mut constants = Constants {
            named: BTreeMap::new(),
        };
        let crates = root.join("crates");
        let entries = std::fs::read_dir(&crates)
            .map_err(|why| format!("{}: {why}", crates.display()))?
            .filter_map(|entry| entry.ok().map(|entry| entry.path()));
        for folder in entries.filter(|path| path.join("src").is_dir()) {
            constants.read_crate(&folder)?;
        }
        Ok(constants)
    }

    fn read_crate(&mut self, folder: &Path) -> Result<(), String> {
        let name = folder.file_name().unwrap_or_default().to_string_lossy();
        for path in text::files(&folder.join("src"))? {
            let code = text::code(&text::read(&path)?);
            let file = file_of(&name, &code);
            for (constant, number, value) in code.split(';').filter_map(declaration) {
                let key = (name.to_string(), constant.to_string());
                self.named.entry(key).or_default().push(Constant {
                    number: number.to_string(),
                    value: value.to_string(),
                    file: file.clone(),
                });
            }
        }
        Ok(())
    }

    fn find(&self, crate_name: &str, name: &str) -> Result<&Constant, String> {
        let key = (crate_name.to_string(), name.to_string());
        match self.named.get(&key).map(Vec::as_slice) {
            Some([one]) => Ok(one),
            Some(_) => Err(format!("crates/{crate_name}/src has {name} more than once")),
            None => Err(format!("crates/{crate_name}/src has no constant {name}")),
        }
    }

    /// Type and value of a constant, a whole number worked out.
    pub fn value(&self, crate_name: &str, name: &str) -> Result<(String, String), String> {
        let constant = self.find(crate_name, name)?;
        let value = match constant.number.as_str() {
            "f32" => constant.value.clone(),
            _ => self.whole(constant)?.to_string(),
        };
        Ok((constant.number.clone(), value))
    }

    fn whole(&self, constant: &Constant) -> Result<u64, String> {
        let scope = Scope {
            constants: self,
            file: constant.file.clone(),
        };
        scope.whole(&constant.value)
    }

    /// What names mean in a file of a crate with this code.
    pub fn scope(&self, crate_name: &str, code: &str) -> Scope<'_> {
        Scope {
            constants: self,
            file: file_of(crate_name, code),
        }
    }
}

impl Scope<'_> {
    /// Numbers and names with `+`, `*` and parentheses between them.
    pub fn whole(&self, value: &str) -> Result<u64, String> {
        let mut sum = 0;
        for product in apart(value, '+') {
            let factors = apart(product, '*');
            let factors = factors.into_iter().map(|factor| self.factor(factor.trim()));
            sum += factors.product::<Result<u64, String>>()?;
        }
        Ok(sum)
    }

    fn factor(&self, word: &str) -> Result<u64, String> {
        let inner = word
            .strip_prefix('(')
            .and_then(|rest| rest.strip_suffix(')'));
        if let Some(inner) = inner {
            return self.whole(inner);
        }
        if let Ok(number) = word.replace('_', "").parse() {
            return Ok(number);
        }
        let (crate_name, name) = self
            .meant(word)
            .ok_or_else(|| format!("{word} is not a whole number"))?;
        self.constants.whole(self.constants.find(crate_name, name)?)
    }

    // The crate that a name is looked up in, and the name there.
    fn meant<'b>(&'b self, word: &'b str) -> Option<(&'b str, &'b str)> {
        let path: Vec<&str> = word.split("::").collect();
        if !path.iter().all(|part| text::is_name(part)) {
            return None;
        }
        let (first, last) = (path[0], path[path.len() - 1]);
        Some(match self.file.used.get(word) {
            Some((from, name)) => (from, name),
            None if path.len() == 1 || first == "crate" => (&self.file.crate_name, last),
            None => (first, last),
        })
    }

    /// The constant of this name, as `crate::NAME`; nothing of a number or a sum.
    pub fn constant(&self, word: &str) -> Option<String> {
        let (crate_name, name) = self.meant(word)?;
        self.constants.find(crate_name, name).ok()?;
        Some(format!("{crate_name}::{name}"))
    }
}

// The parts between the signs that stand in no parentheses or braces.
fn apart(value: &str, sign: char) -> Vec<&str> {
    let mut depth = 0;
    value
        .split(|c| {
            depth += i32::from("({".contains(c)) - i32::from(")}".contains(c));
            c == sign && depth == 0
        })
        .collect()
}

// The paths of a `use`: `q15::{A, b::{B as C}}` is `q15::A` and `q15::b::B as C`.
fn paths(tree: &str) -> Vec<String> {
    let Some((front, group)) = tree.split_once('{') else {
        return vec![tree.trim().to_string()];
    };
    let group = group.trim_end().trim_end_matches(',');
    let group = group.strip_suffix('}').unwrap_or(group);
    let inner = apart(group, ',')
        .into_iter()
        .filter(|one| !one.trim().is_empty());
    let inner = inner.flat_map(paths);
    inner.map(|path| front.trim().to_string() + &path).collect()
}

// `pub const NAME: usize = 8`, behind whatever ended before it.
fn declaration(statement: &str) -> Option<(&str, &str, &str)> {
    let (_, declared) = statement.rsplit_once("const ")?;
    let (name, rest) = declared.split_once(':')?;
    let (number, value) = rest.split_once('=')?;
    text::is_name(name.trim()).then_some((name.trim(), number.trim(), value.trim()))
}

// `use q15::fir_settings::MOST_TAPS`, the same with `as`, and several in braces.
fn file_of(crate_name: &str, code: &str) -> File {
    let mut file = File {
        crate_name: crate_name.to_string(),
        used: BTreeMap::new(),
    };
    let lines = code.lines().filter(|line| !line.starts_with("#!["));
    let code = lines.collect::<Vec<&str>>().join("\n");
    let statements = code.split(';').map(str::trim);
    let trees = statements.filter_map(|statement| {
        let statement = statement.strip_prefix("pub ").unwrap_or(statement);
        statement.strip_prefix("use ")
    });
    for path in trees.flat_map(paths) {
        let (path, alias) = path.split_once(" as ").unwrap_or((&path, ""));
        let Some((from, name)) = path.split_once("::") else {
            continue;
        };
        let from = if from == "crate" { crate_name } else { from };
        let name = name.rsplit("::").next().unwrap_or(name);
        let known = if alias.is_empty() { name } else { alias };
        let meant = (from.trim().to_string(), name.trim().to_string());
        file.used.insert(known.trim().to_string(), meant);
    }
    file
}

#[cfg(test)]
mod tests {
    use super::*;

    #[test]
    fn paths_in_braces_are_each_their_own() {
        let found = paths("q15::{\n    A, b::{B as C, D},\n}");
        assert_eq!(found, ["q15::A", "q15::b::B as C", "q15::b::D"]);
        let file = file_of("any", "#![tactic(auto)]\n\npub use q15::{A, B as C};");
        let meant = |name: &str| ("q15".to_string(), name.to_string());
        assert_eq!(file.used["A"], meant("A"));
        assert_eq!(file.used["C"], meant("B"));
    }

    #[test]
    fn signs_in_parentheses_keep_their_parts_together() {
        let constants = Constants {
            named: BTreeMap::new(),
        };
        let scope = constants.scope("any", "");
        assert_eq!(scope.whole("4 * (23 + 1)"), Ok(96));
        assert_eq!(scope.whole("(1 + 2) * (3 + (4 * 5)) + 6"), Ok(75));
        assert!(scope.whole("2 * (3 + 4").is_err());
    }
}
