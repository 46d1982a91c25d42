//! Parts of a file that are printed, between `// printed: KIND NAME` and `// printed until here`.

/// How the line in front of a part begins.
pub const BEGIN: &str = "// printed: ";
const END: &str = "// printed until here";

/// What can stand between marks.
#[derive(Default)]
pub struct Parts {
    parts: Vec<Part>,
}

struct Part {
    kind: &'static str,
    name: String,
    text: String,
    laid: bool,
}

impl Parts {
    pub fn add(&mut self, kind: &'static str, name: &str, text: String) {
        self.parts.push(Part {
            kind,
            name: name.to_string(),
            text,
            laid: false,
        });
    }

    fn take(&mut self, mark: &str) -> Result<&str, String> {
        let part = self
            .parts
            .iter_mut()
            .find(|part| format!("{} {}", part.kind, part.name) == mark);
        let part = part.ok_or_else(|| format!("nothing is printed as {mark}"))?;
        if part.laid {
            return Err(format!("{mark} is printed a second time"));
        }
        part.laid = true;
        Ok(&part.text)
    }

    /// The text with what is printed between its marks.
    pub fn laid(&mut self, old: &str) -> Result<String, String> {
        let mut new = String::new();
        let mut inside = false;
        for line in old.lines() {
            inside = inside && line != END;
            if !inside {
                new.push_str(line);
                new.push('\n');
            }
            if let Some(mark) = line.strip_prefix(BEGIN) {
                new.push_str(self.take(mark)?);
                inside = true;
            }
        }
        if inside {
            return Err(format!("no line {END}"));
        }
        Ok(new)
    }

    /// Whether a function stands in a header of its own.
    pub fn is_laid(&self, kind: &str, name: &str) -> bool {
        let part = self
            .parts
            .iter()
            .find(|part| part.kind == kind && part.name == name);
        part.is_some_and(|part| part.laid)
    }

    /// Every state and the refusals stand somewhere; a function that does not is in gauge_raw.h.
    pub fn all_laid(&self) -> Result<(), String> {
        match self
            .parts
            .iter()
            .find(|part| !part.laid && part.kind != "function")
        {
            None => Ok(()),
            Some(part) => Err(format!(
                "no file has a mark for {} {}",
                part.kind, part.name
            )),
        }
    }
}
