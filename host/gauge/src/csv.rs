//! The column of a CSV file that is the samples.

use crate::fault::front;
use crate::nearest::did_you_mean;
use crate::whole;

/// One column of a CSV file, found by its first row.
pub struct Column {
    // Name or number, as it was asked for.
    wanted: Option<String>,
    // What stands between cells, and the place of the column, once the first row was read.
    found: Option<(char, usize)>,
}

impl Column {
    /// The column of a name, or of a number counted from 1. A file of one column needs neither.
    pub fn new(wanted: Option<&str>) -> Column {
        Column {
            wanted: wanted.map(str::to_string),
            found: None,
        }
    }

    /// The sample of a row, or what is wrong with it. The first row may be a header, which has none.
    pub fn sample(&mut self, row: &str) -> Result<Option<i32>, String> {
        let header = self.found.is_none() && self.find(row)?;
        match self.found {
            Some((between, at)) if !header => sample_at(row, between, at).map(Some),
            _ => Ok(None),
        }
    }

    // Looks for the column in the first row; whether that is a header.
    fn find(&mut self, row: &str) -> Result<bool, String> {
        let between = between(row);
        let names = cells(row, between)?;
        let at = self.place(&names)?;
        self.found = Some((between, at));
        let is_named = self.wanted.as_deref() == Some(&names[at]);
        Ok(is_named || !names.iter().any(|cell| is_like_a_number(cell)))
    }

    fn place(&self, names: &[String]) -> Result<usize, String> {
        let list = || front(&names.join(", "));
        let count = names.len();
        let Some(wanted) = &self.wanted else {
            let what = format!(
                "{count} columns ({}); --column says which, by name or number",
                list()
            );
            return if count == 1 { Ok(0) } else { Err(what) };
        };
        if let Ok(number) = wanted.parse::<usize>() {
            let at = number.checked_sub(1).filter(|at| *at < count);
            return at.ok_or_else(|| format!("no column {number}; there are {count} ({})", list()));
        }
        names.iter().position(|name| name == wanted).ok_or_else(|| {
            let known: Vec<&str> = names
                .iter()
                .map(String::as_str)
                .filter(|name| !name.is_empty())
                .collect();
            let hint = did_you_mean(wanted, &known);
            format!("no column {}{hint}; they are {}", front(wanted), list())
        })
    }
}

fn sample_at(row: &str, between: char, at: usize) -> Result<i32, String> {
    let cells = cells(row, between)?;
    let cell = cells
        .get(at)
        .ok_or_else(|| format!("no column {}; the row has {}", at + 1, cells.len()))?;
    if cell.is_empty() {
        return Err(format!("column {} is empty", at + 1));
    }
    match between {
        ',' => whole::sample(cell),
        _ => whole::sample(&with_point(cell)?),
    }
}

// A cell that no header has: a row with one is data, even where it is no sample.
fn is_like_a_number(cell: &str) -> bool {
    let sign = |c: char| matches!(c, '+' | '-' | '.' | '\u{2010}'..='\u{2015}' | '\u{2212}');
    let nothing = ["nan", "inf"]
        .iter()
        .any(|word| cell.eq_ignore_ascii_case(word));
    nothing || cell.starts_with(|c: char| c.is_ascii_digit() || sign(c))
}

// Where no comma stands between cells, it may be a decimal one. In 16,000 it may as well divide thousands.
fn with_point(cell: &str) -> Result<String, String> {
    let thousands = |(front, back): (&str, &str)| {
        (1..=3).contains(&front.len()) && !front.starts_with('0') && back.len() == 3
    };
    let digits = cell.trim_start_matches(['+', '-']);
    if digits.split_once(',').is_some_and(thousands) {
        return Err(format!(
            "{cell} may be a decimal or have its thousands divided"
        ));
    }
    Ok(cell.replacen(',', ".", 1))
}

// Semicolons where a row has any outside quotes, else tabs, else commas.
fn between(row: &str) -> char {
    let outside = |sign: char| row.split('"').step_by(2).any(|part| part.contains(sign));
    [';', '\t']
        .into_iter()
        .find(|sign| outside(*sign))
        .unwrap_or(',')
}

// The cells of a row, without their quotes and the blanks around them.
fn cells(row: &str, between: char) -> Result<Vec<String>, String> {
    let mut all = vec![String::new()];
    let mut quoted = false;
    for c in row.chars() {
        let last = all.len() - 1;
        match c {
            '"' => quoted = !quoted,
            c if c == between && !quoted => all.push(String::new()),
            c => all[last].push(c),
        }
    }
    if quoted {
        return Err("a quote that does not end on its line".to_string());
    }
    Ok(all.iter().map(|cell| cell.trim().to_string()).collect())
}

#[cfg(test)]
mod tests {
    use super::*;

    fn samples(column: Option<&str>, rows: &[&str]) -> Result<Vec<i32>, String> {
        let mut column = Column::new(column);
        let samples = rows.iter().map(|row| column.sample(row));
        Ok(samples
            .collect::<Result<Vec<_>, _>>()?
            .into_iter()
            .flatten()
            .collect())
    }

    #[test]
    fn a_column_is_found_by_name_and_number() {
        let rows = [
            "time, level",
            "2026-11-16 13:00:00,  5",
            "2026-11-16 13:00:01,-6.0",
        ];
        assert_eq!(samples(Some("level"), &rows), Ok(vec![5, -6]));
        assert_eq!(samples(Some("2"), &rows), Ok(vec![5, -6]));
        assert_eq!(samples(Some("2"), &rows[1..]), Ok(vec![5, -6]));
        assert_eq!(samples(None, &["level", "5"]), Ok(vec![5]));
        assert_eq!(samples(None, &["5", "6"]), Ok(vec![5, 6]));
        assert_eq!(samples(Some("°C"), &["t,°C", "1,5"]), Ok(vec![5]));
        assert_eq!(samples(Some("2nd"), &["1st,2nd", "1,5"]), Ok(vec![5]));
    }

    #[test]
    fn quotes_semicolons_and_tabs_are_read() {
        let rows = [
            "\"time; UTC\";\"level\"",
            "\"13:00; 1\";\"5,0\"",
            "1;8192,000",
        ];
        assert_eq!(samples(Some("level"), &rows), Ok(vec![5, 8192]));
        assert_eq!(samples(Some("2"), &["a\tb", "1\t5"]), Ok(vec![5]));
    }

    // The column that is asked for, rows, and what is told.
    type Case = (Option<&'static str>, &'static [&'static str], &'static str);
    const NO_SAMPLES: [Case; 13] = [
        (
            None,
            &["a,b"],
            "2 columns (a, b); --column says which, by name or number",
        ),
        (Some("3"), &["a,b"], "no column 3; there are 2 (a, b)"),
        (Some("0"), &["a,b"], "no column 0; there are 2 (a, b)"),
        (
            Some("levle"),
            &["time,level"],
            "no column levle; did you mean level?; they are time, level",
        ),
        (Some("b"), &["a,b", "1"], "no column 2; the row has 1"),
        (Some("b"), &["a,b", "1,"], "column 2 is empty"),
        (
            Some("b"),
            &["a,b", "1,\"2"],
            "a quote that does not end on its line",
        ),
        (
            Some("b"),
            &["a,b", "1,1.5"],
            "1.5 is not a whole number of 32 bits",
        ),
        (
            Some("1"),
            &["1.5,2"],
            "1.5 is not a whole number of 32 bits",
        ),
        (
            Some("2"),
            &["1,nan"],
            "nan is not a whole number of 32 bits",
        ),
        (Some("1"), &[",5"], "column 1 is empty"),
        (
            None,
            &["\u{2212}5"],
            "\u{2212}5 is not a whole number of 32 bits (it has a Unicode minus, U+2212)",
        ),
        (
            Some("2"),
            &["t;level", "1;-16,000"],
            "-16,000 may be a decimal or have its thousands divided",
        ),
    ];

    #[test]
    fn what_is_no_sample_is_told() {
        for (column, rows, said) in NO_SAMPLES {
            assert_eq!(samples(column, rows), Err(said.to_string()));
        }
    }
}
