//! Cases of parked lines: parking, its length, and taking up sheets as they were written, laid otherwise and damaged.

use crate::archive::line;
use crate::calls::{Free, Single, Written};
use crate::case::{Case, Cases, Operation};
use crate::field::{Fields, fields};
use crate::fir_decimator::MOST_TAPS;
use crate::gauge_line::Line;
use crate::lent::{Lent, Slice};
use crate::line_calls::Opened;
use crate::line_cases;
use crate::line_settings;
use crate::parked_line::{self, PARKED, Panel};
use crate::refusals::STATE;
use crate::rng::Rng;
use crate::samples;
use crate::settings;
use crate::tap_sheet::{self, Rule, Sheet};

pub type Park = Single<Line, Places, Written>;
pub type ParkedLen = Single<Line, (), Length>;
pub type TakeUp = Free<Sheet, Opened>;

/// "Parking into a span too short is 17", after 15.
const ENTRIES_REFUSED: u32 = 17;

const PARK: Operation<Park> = Operation {
    code: 0,
    name: "Line::park",
    refusal: Some(|call| match call.state.refusal() {
        0 if call.lent.span.len() < parked_line::parked(&call.state).len() => ENTRIES_REFUSED,
        number => number,
    }),
    rust: |call| {
        let sheet = parked_line::parked(&call.state);
        call.lent.span.elements[..sheet.len()].copy_from_slice(&sheet);
        call.answer.written = sheet.len() as u64;
    },
    archive: line::park,
};

const PARKED_LEN: Operation<ParkedLen> = Operation {
    code: 0,
    name: "Line::parked_len",
    refusal: Some(|call| call.state.refusal()),
    rust: |call| call.answer.bytes = parked_line::parked(&call.state).len() as u64,
    archive: line::parked_len,
};

const TAKE_UP: Operation<TakeUp> = Operation {
    code: 0,
    name: "Line::take_up",
    refusal: Some(|call| {
        let taken_up = parked_line::taken_up(&call.lent.sheet.elements);
        taken_up.err().unwrap_or(0)
    }),
    rust: |call| {
        let taken_up = parked_line::taken_up(&call.lent.sheet.elements);
        call.answer.0 = taken_up.unwrap_or_else(|_| Line::zeros());
    },
    archive: line::take_up,
};

fields! {
    /// The places for a sheet.
    pub struct Places {
        span: Slice<u8>,
    }
}

fields! {
    /// How many bytes a sheet has.
    pub struct Length {
        bytes: u64,
    }
}

fn take_up(sheet: Vec<u8>) -> Box<dyn Case> {
    let sheet = Lent::listed(sheet.into_iter().map(u32::from).collect()).into();
    TAKE_UP.of(Sheet { sheet }).0
}

/// A line after an opening, or a valid one with anything in its arrays.
fn some_line(rng: &mut Rng) -> Line {
    match rng.one_in(4) {
        true => Line::opened(&line_settings::any_good(rng)),
        false => line_cases::midway(rng),
    }
}

fn park(rng: &mut Rng) -> Cases {
    let mut line = match rng.one_in(8) {
        true => line_cases::damaged(rng),
        false => some_line(rng),
    };
    let length = match line.refusal() {
        0 => parked_line::parked(&line).len() as u64,
        _ => 98,
    };
    let places = settings::places_around(rng, length);
    let span = Slice::span(samples::span(rng, places));
    vec![
        PARKED_LEN.on(&mut line, ()),
        PARK.on(&mut line, Places { span }),
    ]
}

/// The same entries, laid otherwise: bytes between them and behind them that belong to none.
fn with_gaps(rng: &mut Rng, entries: &[Vec<u8>]) -> Vec<u8> {
    let mut at = 2 + 8 * entries.len();
    let mark = rng.pick(&[0, tap_sheet::MARK]);
    let mut sheet = (mark | entries.len() as u16).to_le_bytes().to_vec();
    let mut data = Vec::new();
    for entry in entries {
        let gap = rng.pick(&[0, 0, 1, 5]);
        data.extend((0..gap).map(|_| rng.next() as u8));
        at += gap;
        sheet.extend((at as u32).to_le_bytes());
        sheet.extend((entry.len() as u32).to_le_bytes());
        data.extend(entry);
        at += entry.len();
    }
    data.extend((0..rng.below(3)).map(|_| rng.next() as u8));
    [sheet, data].concat()
}

/// A number of the settings entry: which, and what it becomes.
fn change_setting(rng: &mut Rng, settings: &mut [u8]) {
    let at = 2 * rng.below(8) as usize;
    let old = u16::from_le_bytes([settings[at], settings[at + 1]]);
    let new = match rng.below(4) {
        0 => rng.next() as u16,
        1 => rng.pick(&[
            0, 1, 2, 5, 6, 8, 9, 16, 17, 64, 65, 100, 128, 129, 4096, 4097,
        ]),
        2 => old.wrapping_add(1),
        _ => old.wrapping_sub(1),
    };
    settings[at..at + 2].copy_from_slice(&new.to_le_bytes());
}

/// The most bytes of an entry that is made as long as its settings say.
const LONGEST: u64 = 20_000;

/// Every entry as long as the settings entry makes it, with bytes of its own in front.
fn relengthen(rng: &mut Rng, entries: &mut [Vec<u8>]) {
    let lengths = parked_line::lengths(&entries[0], entries.len());
    for (entry, length) in entries.iter_mut().zip(lengths) {
        let fill = rng.pick(&[0, 0, 1]);
        entry.resize(length.min(LONGEST) as usize, fill);
    }
}

/// Bits that parking writes for no float, or that a part which is off does not have.
const FLOATS: [u32; 8] = [
    0x7fc0_0000,
    0x7fc0_0001,
    0x7f80_0001,
    0xffc0_0000,
    0x8000_0000,
    0x7f80_0000,
    0x0000_0001,
    0x3f80_0000,
];

/// Four bytes where a float may stand, or two where a number may.
fn change_field(rng: &mut Rng, entries: &mut [Vec<u8>]) {
    let k = rng.below(entries.len() as u64) as usize;
    let entry = &mut entries[k];
    let words = entry.len() as u64 / 2;
    if words < 2 {
        return;
    }
    let at = 2 * rng.below(words - 1) as usize;
    if rng.one_in(2) {
        entry[at..at + 4].copy_from_slice(&rng.pick(&FLOATS).to_le_bytes());
    } else {
        let number: u16 = rng.pick(&[0, 1, 2, 3, 0x8000, 0xffff]);
        entry[at..at + 2].copy_from_slice(&number.to_le_bytes());
    }
}

/// The number in front of an entry: counter, wait, held count, mu.
fn change_front(rng: &mut Rng, entries: &mut [Vec<u8>]) {
    let k = rng.pick(&[1, 3, 4, 6, entries.len() - 1]);
    let old = entries[0][2];
    let number: u16 = rng.pick(&[0, 1, 2, old.into(), 64, 65, 128, 129, 4096, 4097, 0xffff]);
    if let Some(front) = entries[k].get_mut(..2) {
        front.copy_from_slice(&number.to_le_bytes());
    }
}

/// One entry longer or shorter, missing or twice.
fn change_entries(rng: &mut Rng, entries: &mut Vec<Vec<u8>>) {
    let k = rng.below(entries.len() as u64) as usize;
    match rng.below(5) {
        0 => drop(entries.remove(k)),
        1 => entries.insert(k, entries[k].clone()),
        2 => drop(entries[k].pop()),
        3 => entries[k].push(0),
        _ => entries[k].clear(),
    }
}

/// Entries of which something was changed.
fn changed(rng: &mut Rng, line: &Line) -> Vec<Vec<u8>> {
    let mut entries = parked_line::entries(line).to_vec();
    match rng.below(8) {
        0 => change_entries(rng, &mut entries),
        1 => change_setting(rng, &mut entries[0]),
        2 | 3 => {
            change_setting(rng, &mut entries[0]);
            relengthen(rng, &mut entries);
        }
        4 => change_front(rng, &mut entries),
        5 => {
            let step = rng.pick(&FLOATS);
            entries[0][16..20].copy_from_slice(&step.to_le_bytes());
        }
        _ => change_field(rng, &mut entries),
    }
    entries
}

/// A sheet as written, laid otherwise, or damaged in its entries or its bytes.
fn some_sheet(rng: &mut Rng) -> Vec<u8> {
    let line = some_line(rng);
    let entries = match rng.one_in(4) {
        true => parked_line::entries(&line).to_vec(),
        false => changed(rng, &line),
    };
    let mut sheet = match rng.one_in(4) {
        true => with_gaps(rng, &entries),
        false => parked_line::sheet(&entries),
    };
    match rng.below(8) {
        0 => tap_sheet::damage(rng, &mut sheet, entries.len()),
        1 => {
            let at = rng.below(sheet.len() as u64) as usize;
            sheet[at] ^= 1 << rng.below(8);
        }
        _ => (),
    }
    sheet
}

/// Sheets that the program wrote when their version was new.
const STORED: [&[u8]; 5] = [
    include_bytes!("../../../host/gauge-line/tests/parked/f1.parked"),
    include_bytes!("../../../host/gauge-line/tests/parked/f2.parked"),
    include_bytes!("../../../host/gauge-line/tests/parked/f3.parked"),
    include_bytes!("../../../host/gauge-line/tests/parked/f4.parked"),
    include_bytes!("../../../host/gauge-line/tests/parked/f5.parked"),
];

/// One that was written when neighbours came to thin.
const OF_NEIGHBOURS: &[u8] = include_bytes!("../../../host/gauge-line/tests/parked/f7.marked");

/// A panel from between requests 9 and 13.
const WITHOUT_NEIGHBOURS: Panel = Panel {
    most_taps: MOST_TAPS,
    rule: Rule::Present,
    has_neighbours: false,
};

/// A panel from before request 7.
const OLDER: Panel = Panel {
    most_taps: 64,
    rule: Rule::Former,
    has_neighbours: false,
};

/// A count over 32, as a panel without the mark reads it.
const DIRECTORY: u32 = 16;

/// 02, request 7: such a panel takes each up, but for a longer one, which it answers with 15; request 9: with the mark it answers each with 16; request 13: of eight entries a panel
/// before it answers 21.
pub fn stored() -> Cases {
    let mut cases = Vec::new();
    for sheet in STORED {
        let line = parked_line::taken_up(sheet).expect("a stored sheet is taken up");
        let is_longer = line.fir.tap_count > OLDER.most_taps;
        assert_eq!(OLDER.taken_up(sheet).err(), is_longer.then_some(STATE));
        let marked = parked_line::parked(&line);
        assert_eq!(OLDER.taken_up(&marked).err(), Some(DIRECTORY));
        assert!(WITHOUT_NEIGHBOURS.taken_up(&marked).is_ok());
        cases.extend([sheet.to_vec(), marked].map(take_up));
    }
    assert_eq!(
        WITHOUT_NEIGHBOURS.taken_up(OF_NEIGHBOURS).err(),
        Some(PARKED)
    );
    assert_eq!(OLDER.taken_up(OF_NEIGHBOURS).err(), Some(DIRECTORY));
    cases.push(take_up(OF_NEIGHBOURS.to_vec()));
    cases
}

pub fn cases(rng: &mut Rng) -> Cases {
    match rng.below(8) {
        0 => park(rng),
        _ => vec![take_up(some_sheet(rng))],
    }
}
