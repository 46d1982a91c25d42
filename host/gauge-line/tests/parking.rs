//! Parked lines that were stored when the layout was made: each history parks to the stored bytes, they are taken up and parked again to the same, and the feeds behind them give what
//! is stored, of the line taken up and of one never parked. And one damaged byte after another, each with its number.
//!
//! `NAME.history` is what goes in: settings, taps and prototype, then feeds, each with its places and its samples, and `park` between two of them. Floats are bits, hexadecimal. With
//! GAUGE_STORE=1 a sheet `NAME.marked` and answers `NAME.answers` that are missing are written; those that are there never change. `NAME.parked` is what was written before
//! request 9, the same without the mark; neighbours thinned no line then.

use gauge_line::limits::MOST_TAPS;
use gauge_line::{Line, Phase, Settings, Thinning};
use std::fmt::Write;
use std::path::PathBuf;
use std::str::FromStr;
use std::{env, fs};

const STORED: [&str; 6] = ["f1", "f2", "f3", "f4", "f5", "f7"];

fn place(name: &str) -> PathBuf {
    let folder = PathBuf::from(env!("CARGO_MANIFEST_DIR")).join("tests/parked");
    folder.join(name)
}

fn stored(name: &str, now: &[u8]) -> Vec<u8> {
    let place = place(name);
    if env::var_os("GAUGE_STORE").is_some() && !place.exists() {
        fs::write(&place, now).unwrap();
    }
    fs::read(&place).unwrap_or_else(|why| panic!("{name}: {why}"))
}

fn numbers<T: FromStr>(words: &[&str]) -> Vec<T>
where
    T::Err: std::fmt::Debug,
{
    words.iter().map(|word| word.parse().unwrap()).collect()
}

/// A sample, or one so many times: `3000*24000`.
fn samples(words: &[&str]) -> Vec<i32> {
    let run = |word: &&str| {
        let (sample, count) = word.split_once('*').unwrap_or((word, "1"));
        vec![sample.parse().unwrap(); count.parse().unwrap()]
    };
    words.iter().flat_map(run).collect()
}

fn float(word: &str) -> f32 {
    f32::from_bits(u32::from_str_radix(word, 16).unwrap())
}

/// One feed: its places and its samples.
type Feed = (usize, Vec<i32>);

#[derive(Default)]
struct History {
    settings: Settings,
    taps: Vec<i16>,
    prototype: Vec<f32>,
    before: Vec<Feed>,
    after: Vec<Feed>,
}

impl History {
    fn read(name: &str) -> History {
        let text = fs::read_to_string(place(&format!("{name}.history"))).unwrap();
        let mut history = History::default();
        let mut is_parked = false;
        for line in text.lines().filter(|line| !line.starts_with('#')) {
            let words: Vec<&str> = line.split_whitespace().collect();
            match words[..] {
                ["park"] => is_parked = true,
                ["feed", places, ref words @ ..] => {
                    let feed = (places.parse().unwrap(), samples(words));
                    match is_parked {
                        true => history.after.push(feed),
                        false => history.before.push(feed),
                    }
                }
                [name, ref values @ ..] => history.set(name, values),
                [] => (),
            }
        }
        assert!(is_parked, "{name}: nothing is parked");
        history
    }

    fn set(&mut self, name: &str, values: &[&str]) {
        let number = || values[0].parse().unwrap();
        match name {
            "stages" => self.settings.stages = number(),
            "r" => self.settings.r = number(),
            "factor" => self.settings.factor = number(),
            "depth" => self.settings.depth = number(),
            "phases" => self.settings.phases = number(),
            "phase_taps" => self.settings.phase_taps = number(),
            "neighbours" => self.settings.thinning = Thinning::Neighbours,
            "straight" => self.settings.phase = Phase::Straight,
            "step" => self.settings.step = float(values[0]),
            "taps" => self.taps = numbers(values),
            "prototype" => self.prototype = values.iter().copied().map(float).collect(),
            _ => panic!("no setting {name}"),
        }
    }

    fn open(&self) -> Line {
        Line::open(self.settings, &self.taps, &self.prototype).unwrap()
    }
}

/// What each feed answers: taken, the cut count, the levels' bits.
fn answers(line: &mut Line, feeds: &[Feed]) -> String {
    let mut text = String::new();
    for (places, samples) in feeds {
        let mut out = vec![0.0; *places];
        let moved = line.feed(samples, &mut out).unwrap();
        write!(text, "{} {}", moved.taken, line.cuts()).unwrap();
        for level in &out[..moved.written] {
            let level = if level.is_nan() { f32::NAN } else { *level };
            write!(text, " {:08x}", level.to_bits()).unwrap();
        }
        text.push('\n');
    }
    text
}

fn parked(line: &Line) -> Vec<u8> {
    let mut sheet = vec![0xa5; Line::MOST_PARKED];
    let length = line.park(&mut sheet).unwrap();
    assert_eq!(line.parked_len(), Ok(length));
    assert!(sheet[length..].iter().all(|byte| *byte == 0xa5));
    sheet.truncate(length);
    sheet
}

/// A sheet from before request 9 with the top bit of its entry count set.
fn marked(sheet: &[u8]) -> Vec<u8> {
    let mut sheet = sheet.to_vec();
    sheet[1] |= 128;
    sheet
}

#[test]
fn stored_lines_are_parked_and_taken_up_as_ever() {
    for name in STORED {
        let history = History::read(name);
        let mut line = history.open();
        let before = answers(&mut line, &history.before);
        let bytes = parked(&line);
        let sheet = stored(&format!("{name}.marked"), &bytes);
        assert_eq!(bytes, sheet, "{name}: other bytes");

        let mut sheets = vec![sheet.clone()];
        if history.settings.thinning == Thinning::Integrators {
            let former = fs::read(place(&format!("{name}.parked"))).unwrap();
            assert_eq!(marked(&former), sheet, "{name}: more than the mark");
            sheets.push(former);
        }
        let after = answers(&mut line, &history.after);
        for sheet in &sheets {
            let mut taken_up = Line::take_up(sheet).unwrap();
            assert_eq!(parked(&taken_up), bytes, "{name}: other bytes again");
            assert_eq!(answers(&mut taken_up, &history.after), after, "{name}");
        }
        let told = format!("{before}park\n{after}");
        let file = format!("{name}.answers");
        assert_eq!(told.as_bytes(), stored(&file, told.as_bytes()), "{name}");
    }
}

/// `damaged.txt`: a stored sheet, a byte of it, what it becomes, the number of the refusal.
#[test]
fn one_damaged_byte_is_answered_by_its_number() {
    let text = fs::read_to_string(place("damaged.txt")).unwrap();
    let mut count = 0;
    for line in text.lines().filter(|line| !line.starts_with('#')) {
        let words: Vec<&str> = line.split_whitespace().collect();
        let [_, name, at, byte, number, ..] = words[..] else {
            panic!("{line}");
        };
        let mut sheet = fs::read(place(&format!("{name}.parked"))).unwrap();
        let (at, byte): (usize, u8) = (at.parse().unwrap(), byte.parse().unwrap());
        assert_ne!(sheet[at], byte, "{line}");
        sheet[at] = byte;
        let refusal = Line::take_up(&sheet).expect_err(line);
        assert_eq!(refusal.number().to_string(), number, "{line}");
        count += 1;
    }
    assert!(count > 0);
}

/// Every byte of the largest line, changed in every bit: refused, or a line that parks to these bytes.
#[test]
fn what_is_taken_up_parks_to_the_same_bytes() {
    let sheet = fs::read(place("f2.parked")).unwrap();
    for at in 0..sheet.len() {
        for bit in 0..8 {
            let mut changed = sheet.clone();
            changed[at] ^= 1 << bit;
            if let Ok(line) = Line::take_up(&changed) {
                assert_eq!(parked(&line), marked(&changed), "bit {bit} of byte {at}");
            }
        }
    }
}

#[test]
fn a_short_span_stays_as_it_was() {
    let line = History::read("f1").open();
    let mut span = [9; 97];
    let refusal = line.park(&mut span).unwrap_err();
    assert_eq!((refusal.number(), span), (17, [9; 97]));
}

#[test]
fn the_largest_line_has_the_most_bytes() {
    let settings = Settings {
        stages: 8,
        factor: 1,
        depth: 5,
        phases: 64,
        phase_taps: 16,
        ..Settings::default()
    };
    let bytes = |settings| {
        let line = Line::open(settings, &[1; MOST_TAPS], &[0.0; 1024])?;
        line.parked_len()
    };
    assert_eq!(bytes(settings), Ok(5576));
    let thinned = (1..=8).flat_map(|stages| {
        (0..=12).map(move |halvings| Settings {
            stages,
            r: 1 << halvings,
            thinning: Thinning::Neighbours,
            ..settings
        })
    });
    let most = thinned.filter_map(|settings| bytes(settings).ok()).max();
    assert_eq!(most, Some(Line::MOST_PARKED));
}
