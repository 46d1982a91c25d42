//! The cases as records, for `replay`.

use crate::record::Record;
use crate::request::Request;
use crate::rng::Rng;
use std::collections::HashMap;
use std::io::{self, Write};

/// A short list that has every operation and every answer: of each operation the first `each` with an answer, the first few of each refusal, and the first
/// few with slices about as long as 01 allows.
struct Short {
    each: usize,
    kept: HashMap<(u32, u32, bool), usize>,
}

impl Short {
    const LONGEST_RECORD: usize = 1200;

    fn keeps(&mut self, record: &Record) -> bool {
        let is_long = record.longest_slice >= 65_000;
        let most = match record.refusal {
            0 if !is_long => self.each,
            _ => self.each.div_ceil(6),
        };
        let kind = (record.operation, record.refusal, is_long);
        let kept = self.kept.entry(kind).or_default();
        let keeps = *kept < most && record.len() <= Self::LONGEST_RECORD;
        *kept += usize::from(keeps);
        keeps
    }
}

pub fn list(request: &Request, out: &mut impl Write) -> io::Result<()> {
    let mut rng = Rng::new(request.seed);
    let mut short = request.each.map(|each| Short {
        each,
        kept: HashMap::new(),
    });
    let mut left = request.cases;
    while left > 0 {
        let converter = rng.pick(&request.converters);
        let cases = (converter.cases)(&mut rng);
        for record in cases.iter().take(left).map(|case| case.record()) {
            if short.as_mut().is_none_or(|short| short.keeps(&record)) {
                record.write(out)?;
            }
        }
        left -= cases.len().min(left);
    }
    Ok(())
}
