//! `gauge plan`: what each feed of a plan would take and write, before a line is connected, and which span would never be full.

use crate::fault::{Fault, front};
use crate::job::opened;
use crate::line_file::LineFile;
use crate::options::Options;
use crate::target::Target;
use crate::text::{content, read_small};
use gauge_line::limits::{MOST_BLOCK, MOST_CALLS};
use gauge_line::{Refusal, plan as counted};
use std::ffi::OsString;
use std::fmt::Write;
use std::path::Path;

// Calls that the arguments may name, so that a slip of the hand fills no memory. The archive refuses fewer.
const MOST_NAMED: usize = 1 << 16;

/// Prints the table of the plan that the arguments give.
pub fn plan(arguments: &[OsString]) -> Result<(), Fault> {
    let known = ["--settings", "--piece", "--span", "--calls"];
    let options = Options::parse(arguments, &known, "--settings")?;
    let calls = calls(&options)?;
    let (file, _) = opened(&options)?;
    let counts = tried(&file, &calls).map_err(|refusal| refused(refusal, &calls))?;
    let mut text = table(&calls, &counts);
    text += &verdict(&file, &calls, &counts)?;
    let mut out = Target::create("-")?;
    out.write(text.as_bytes())?;
    out.finish()
}

// The lengths that each call lends.
struct Calls {
    pieces: Vec<u64>,
    spans: Vec<u64>,
}

// What each call took and wrote.
struct Counts {
    taken: Vec<u64>,
    written: Vec<u64>,
}

fn calls(options: &Options) -> Result<Calls, Fault> {
    match options.get("--calls") {
        Some(_) if options.get("--piece").is_some() || options.get("--span").is_some() => {
            Err(Fault::usage("--calls has pieces and spans already"))
        }
        Some(file) => in_file(Path::new(file)),
        None => {
            let (pieces, spans) = (listed(options, "--piece")?, listed(options, "--span")?);
            let calls = pieces.calls().max(spans.calls()).unwrap_or(1);
            Ok(Calls {
                pieces: pieces.of(calls),
                spans: spans.of(calls),
            })
        }
    }
}

// A line for each call: its piece and its span.
fn in_file(file: &Path) -> Result<Calls, Fault> {
    let text = read_small(file).map_err(|why| Fault::file(file, why))?;
    let (mut pieces, mut spans) = (Vec::new(), Vec::new());
    for (at, line) in text.split(|byte| *byte == b'\n').enumerate() {
        let line = String::from_utf8_lossy(content(line));
        let numbers: Vec<Option<u64>> = line.split_whitespace().map(|n| n.parse().ok()).collect();
        match numbers[..] {
            [] => {}
            [Some(piece), Some(span)] => {
                pieces.push(piece);
                spans.push(span);
            }
            _ => {
                let what = format!("{} is not a piece and a span", front(&line));
                return Err(Fault::line(file, at + 1, what));
            }
        }
    }
    Ok(Calls { pieces, spans })
}

// Lengths of an option: one for every call, or a list.
enum Lengths {
    Every(u64),
    List(Vec<u64>),
}

impl Lengths {
    fn calls(&self) -> Option<usize> {
        match self {
            Lengths::Every(_) => None,
            Lengths::List(list) => Some(list.len()),
        }
    }

    fn of(self, calls: usize) -> Vec<u64> {
        match self {
            Lengths::Every(length) => vec![length; calls],
            Lengths::List(list) => list,
        }
    }
}

// `64`, `64x20` or `64x20,32,16x3`.
fn listed(options: &Options, name: &str) -> Result<Lengths, Fault> {
    options.needed(name)?;
    let text = options.text(name)?.unwrap_or_default();
    if let Ok(length) = text.parse() {
        return Ok(Lengths::Every(length));
    }
    let mut list = Vec::new();
    for part in text.split(',') {
        let (length, times) = part.split_once('x').unwrap_or((part, "1"));
        let (Ok(length), Ok(times)) = (length.parse(), times.parse()) else {
            let what = format!("{name} {} is not lengths as 64x20,32", front(text));
            return Err(Fault::usage(what));
        };
        if list.len().saturating_add(times) > MOST_NAMED {
            let what = format!("{name} {}: over {MOST_NAMED} calls", front(text));
            return Err(Fault::usage(what));
        }
        list.resize(list.len() + times, length);
    }
    Ok(Lengths::List(list))
}

fn tried(file: &LineFile, calls: &Calls) -> Result<Counts, Refusal> {
    let (mut taken, mut written) = (vec![0; calls.pieces.len()], vec![0; calls.pieces.len()]);
    counted(
        file.settings,
        &file.taps,
        &file.prototype,
        &calls.pieces,
        &calls.spans,
        &mut taken,
        &mut written,
    )?;
    Ok(Counts { taken, written })
}

// A refusal of the plan with what passes its limit. Those of the opening were told with the settings.
fn refused(refusal: Refusal, calls: &Calls) -> Fault {
    let (pieces, spans) = (calls.pieces.len(), calls.spans.len());
    let long = |list: &[u64]| list.iter().copied().find(|n| *n > MOST_BLOCK as u64);
    let why = match (long(&calls.pieces), long(&calls.spans)) {
        _ if pieces != spans => format!("{pieces} pieces and {spans} spans"),
        _ if pieces > MOST_CALLS => format!("{pieces} calls, at most {MOST_CALLS}"),
        (Some(piece), _) => format!("a piece of {piece}, at most {MOST_BLOCK}"),
        (None, Some(span)) => format!("a span of {span}, at most {MOST_BLOCK}"),
        (None, None) => refusal.reason().to_string(),
    };
    let (number, name) = (refusal.number(), refusal.name());
    Fault::usage(format!("refusal {number}, {name}: {why}"))
}

fn table(calls: &Calls, counts: &Counts) -> String {
    let mut text = "call   piece    span   taken  written\n".to_string();
    let lent = calls.pieces.iter().zip(&calls.spans);
    let moved = counts.taken.iter().zip(&counts.written);
    for (at, ((piece, span), (taken, written))) in lent.zip(moved).enumerate() {
        // A text in memory takes whatever is written.
        let _ = writeln!(
            text,
            "{:>4}  {piece:>6}  {span:>6}  {taken:>6}  {written:>7}",
            at + 1
        );
    }
    text
}

// In how many calls the span was full, and the least span that would never be.
fn verdict(file: &LineFile, calls: &Calls, counts: &Counts) -> Result<String, Fault> {
    let full = counts.written.iter().zip(&calls.spans);
    let full = full.filter(|(written, span)| written >= span).count();
    let of = calls.spans.len();
    let name = match calls.spans.split_first() {
        None => return Ok("no calls\n".to_string()),
        Some((first, rest)) if rest.iter().all(|span| span == first) => format!("span {first}"),
        Some(_) => "the span".to_string(),
    };
    let enough = match enough(file, &calls.pieces).map_err(|refusal| refused(refusal, calls))? {
        Some(span) => format!("{span} is enough"),
        None => format!("{MOST_BLOCK} is not enough"),
    };
    Ok(format!(
        "{name} was full in {full} of {of} calls; {enough}\n"
    ))
}

// The least span that no call fills, where there is one. With the longest span a call that leaves a place unwritten has written all that its samples make; so does one with any
// span that is longer than what was written, and with one as long the span is full.
fn enough(file: &LineFile, pieces: &[u64]) -> Result<Option<u64>, Refusal> {
    let longest = Calls {
        pieces: pieces.to_vec(),
        spans: vec![MOST_BLOCK as u64; pieces.len()],
    };
    let most = tried(file, &longest)?.written.into_iter().max();
    Ok(most
        .map(|most| most + 1)
        .filter(|span| *span <= MOST_BLOCK as u64))
}
