//! "Did you mean": the known word that a mistyped one is nearest to.

/// `; did you mean WORD?` for the known word that at most two letters set, changed, put in or left out make of `word`; nothing where none is so near.
pub fn did_you_mean(word: &str, known: &[&str]) -> String {
    const MOST: usize = 2;
    let apart = |known: &&&str| distance(word, known);
    match known.iter().min_by_key(apart) {
        Some(known) if distance(word, known) <= MOST.min(known.len() - 1) => {
            format!("; did you mean {known}?")
        }
        _ => String::new(),
    }
}

// Letters to change, put in or leave out.
fn distance(one: &str, other: &str) -> usize {
    let other: Vec<char> = other.chars().collect();
    let mut row: Vec<usize> = (0..=other.len()).collect();
    for (at, letter) in one.chars().enumerate() {
        row = next_row(&row, at + 1, letter, &other);
    }
    row[other.len()]
}

// From the distances of a front of the first word to all fronts of the second, those of the front with one letter more.
fn next_row(row: &[usize], first: usize, letter: char, other: &[char]) -> Vec<usize> {
    let mut next = vec![first];
    for (at, wanted) in other.iter().enumerate() {
        let changed = row[at] + usize::from(letter != *wanted);
        next.push(changed.min(row[at + 1] + 1).min(next[at] + 1));
    }
    next
}

#[cfg(test)]
mod tests {
    use super::*;

    #[test]
    fn a_near_word_is_named_and_a_far_one_not() {
        let known = ["run", "explain", "plot"];
        assert_eq!(did_you_mean("explian", &known), "; did you mean explain?");
        assert_eq!(did_you_mean("plt", &known), "; did you mean plot?");
        for far in ["walk", "", "r", "üüüüüüüüü"] {
            assert_eq!(did_you_mean(far, &["explain"]), "");
        }
    }
}
