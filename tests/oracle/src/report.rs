//! A difference as text: what is lent, field by field, then the answers that differ.

use crate::field::{Field, Shape};

/// As many numbers or runs of equal ones are shown of a list.
const MOST: usize = 40;

fn name(field: &Field) -> String {
    format!("{} {}", field.part, field.name).trim().to_string()
}

/// The numbers of a list, equal ones that follow each other only once.
fn runs(texts: &[String]) -> String {
    let mut runs: Vec<(&String, usize)> = Vec::new();
    for text in texts {
        match runs.last_mut() {
            Some((last, count)) if *last == text => *count += 1,
            _ => runs.push((text, 1)),
        }
    }
    let shown: Vec<String> = runs
        .iter()
        .take(MOST)
        .map(|(text, count)| match count {
            1 => text.to_string(),
            _ => format!("{text} × {count}"),
        })
        .collect();
    let more = if runs.len() > MOST { ", .." } else { "" };
    format!("{} [{}{more}]", texts.len(), shown.join(", "))
}

fn value(field: &Field) -> String {
    let texts = field.values.texts();
    match (&field.shape, &texts[..]) {
        (Shape::Plain, [text]) => text.clone(),
        _ => runs(&texts),
    }
}

/// What a call is lent.
pub fn lent(fields: &[Field]) -> String {
    let line = |field: &Field| format!("  {:24}{}", name(field), value(field));
    let lines: Vec<String> = fields.iter().filter(|f| f.is_lent()).map(line).collect();
    lines.join("\n")
}

fn both(name: &str, expected: &str, answered: &str) -> String {
    format!("{name}: expected {expected}, the archive answers {answered}")
}

pub fn refusals(expected: u32, answered: u64) -> String {
    both("refusal", &expected.to_string(), &answered.to_string())
}

/// The first place that differs, if there is one.
fn difference(expected: &Field, answered: &Field) -> Option<String> {
    let (words, others) = (expected.values.words(), answered.values.words());
    if words == others {
        return None;
    }
    let (texts, others) = (expected.values.texts(), answered.values.texts());
    let name = name(expected);
    let differs = |i: &usize| texts[*i] != others[*i];
    Some(match (0..texts.len().min(others.len())).find(differs) {
        Some(0) if texts.len() == 1 => both(&name, &texts[0], &others[0]),
        Some(at) => both(&format!("{name}[{at}]"), &texts[at], &others[at]),
        None => both(&name, &runs(&texts), &runs(&others)),
    })
}

/// The answers that differ.
pub fn answers(expected: &[Field], answered: &[Field]) -> String {
    let pairs = expected.iter().zip(answered);
    let lines: Vec<String> = pairs.filter_map(|(e, a)| difference(e, a)).collect();
    lines.join("\n")
}
