//! Cases of tap sheets. What is expected is written from 02, requests 1 and 9, and shares nothing with the port: each byte of a sheet gets an owner.

use crate::archive::sheet as archive;
use crate::calls::{Free, Written};
use crate::case::{Cases, Operation};
use crate::element::Element;
use crate::field::{Shape, fields};
use crate::lent::{Lent, Slice};
use crate::rng::Rng;
use crate::samples;
use crate::settings;
use crate::simpler;

/// "an entry count, 0 to 32"
const MOST_ENTRIES: usize = 32;

/// "the top bit in the entry count (32,768)"
pub const MARK: u16 = 32_768;

/// The rule that a reader knows: request 1's, or request 9's, which has the mark.
#[derive(Clone, Copy, PartialEq)]
pub enum Rule {
    Former,
    Present,
}

pub type Counting = Free<Sheet, Entries>;
pub type Reading = Free<Reader, Place>;
pub type Writing = Free<Joined, Written>;

const COUNT: Operation<Counting> = Operation {
    code: 0xd1,
    name: "sheet_count",
    refusal: Some(|call| refusal(&entries(&call.lent.sheet.elements))),
    rust: |call| {
        let found = entries(&call.lent.sheet.elements).unwrap_or_default();
        call.answer.entries = found.len() as u64;
    },
    archive: archive::sheet_count,
};

const ENTRY: Operation<Reading> = Operation {
    code: 0xd2,
    name: "TapSheet::entry",
    refusal: Some(|call| refusal(&call.lent.place())),
    rust: |call| {
        let place = call.lent.place().unwrap_or_default();
        (call.answer.offset, call.answer.size) = place;
    },
    archive: archive::sheet_entry,
};

const WRITE: Operation<Writing> = Operation {
    code: 0xd3,
    name: "write_sheet",
    refusal: Some(|call| refusal(&call.lent.sheet())),
    rust: |call| {
        let sheet = call.lent.sheet().unwrap_or_default();
        call.lent.span.elements[..sheet.len()].copy_from_slice(&sheet);
        call.answer.written = sheet.len() as u64;
    },
    archive: archive::sheet_write,
};

fields! {
    /// A sheet's bytes.
    pub struct Sheet {
        sheet: Slice<u8>,
    }
}

fields! {
    /// A reader's bytes and its count, and the wanted entry.
    pub struct Reader {
        sheet: Slice<u8>,
        count: u64,
        entry: u64,
    }
}

fields! {
    /// What a writer is lent.
    pub struct Joined {
        joined: Slice<u8>,
        lengths: Slice<Length>,
        span: Slice<u8>,
    }
}

fields! {
    /// How many entries.
    pub struct Entries {
        entries: u64,
    }
}

fields! {
    /// Where an entry stands.
    pub struct Place {
        offset: u64,
        size: u64,
    }
}

/// A length that is lent: the word's two's complement, so that sums of them pass 2^64.
#[derive(Clone, Copy, Debug, Default)]
#[repr(transparent)]
pub struct Length(u64);

impl Element for Length {
    const ARRAY: Shape = Shape::Plain;

    fn of(word: u32) -> Self {
        Length(i64::from(word as i32) as u64)
    }

    fn words(self, to: &mut Vec<u32>) {
        self.0.words(to);
    }

    fn simpler(self) -> Vec<Self> {
        simpler::integers(self.0.into())
            .into_iter()
            .flat_map(u64::try_from)
            .map(Length)
            .collect()
    }
}

fn refusal<T>(answer: &Result<T, u32>) -> u32 {
    answer.as_ref().err().copied().unwrap_or(0)
}

/// A little-endian number from the front of the directory: 16 where the sheet ends inside it.
fn number(directory: &mut &[u8], bytes: usize) -> Result<u64, u32> {
    let (front, rest) = directory.split_at_checked(bytes).ok_or(16u32)?;
    *directory = rest;
    Ok(front
        .iter()
        .rev()
        .fold(0, |n, byte| n << 8 | u64::from(*byte)))
}

/// Offsets and lengths, and whether the mark is set, which "readers strip".
struct Directory {
    is_marked: bool,
    pairs: Vec<(u64, u64)>,
}

impl Directory {
    fn read(rule: Rule, sheet: &[u8]) -> Result<Self, u32> {
        let mut rest = sheet;
        let word = number(&mut rest, 2)?;
        let is_marked = rule == Rule::Present && word & u64::from(MARK) != 0;
        let count = if is_marked {
            word - u64::from(MARK)
        } else {
            word
        };
        if count > MOST_ENTRIES as u64 {
            return Err(16);
        }
        let pair = |_| Ok((number(&mut rest, 4)?, number(&mut rest, 4)?));
        let pairs = (0..count).map(pair).collect::<Result<_, u32>>()?;
        Ok(Directory { is_marked, pairs })
    }

    /// "the empty one comes first": no empty entry behind a full one of equal offset.
    fn has_empty_first(&self) -> bool {
        let full_before = |j: usize| {
            let full = |&(offset, size): &(u64, u64)| offset == self.pairs[j].0 && size > 0;
            self.pairs[..j].iter().any(full)
        };
        let empty = |j: &usize| self.pairs[*j].1 == 0;
        !(0..self.pairs.len()).filter(empty).any(full_before)
    }
}

/// Whether the entries are sorted, lie in the data, and have each byte for themselves.
fn sound(sheet: &[u8], entries: &[(u64, u64)]) -> bool {
    let data = 2 + 8 * entries.len() as u64;
    let mut owned = vec![false; sheet.len()];
    let mut last = 0;
    for &(offset, size) in entries {
        if offset < last || !(data..=sheet.len() as u64).contains(&offset) {
            return false;
        }
        last = offset;
        let Some(part) = owned.get_mut(offset as usize..(offset + size) as usize) else {
            return false;
        };
        if part.contains(&true) {
            return false;
        }
        part.fill(true);
    }
    true
}

/// The entries of a sheet, or 16, 17.
pub fn entries(sheet: &[u8]) -> Result<Vec<(u64, u64)>, u32> {
    entries_by(Rule::Present, sheet)
}

/// The same for a reader that knows this rule: "sheets made before this are checked under the former rule, marked by the lack of the top bit".
pub fn entries_by(rule: Rule, sheet: &[u8]) -> Result<Vec<(u64, u64)>, u32> {
    let found = Directory::read(rule, sheet)?;
    let is_ordered = !found.is_marked || found.has_empty_first();
    if sound(sheet, &found.pairs) && is_ordered {
        Ok(found.pairs)
    } else {
        Err(17)
    }
}

impl Reader {
    fn place(&self) -> Result<(u64, u64), u32> {
        let sheet = &self.sheet.elements;
        let own = Directory::read(Rule::Present, sheet)?.pairs.len();
        if own as u64 != self.count {
            return Err(16);
        }
        let found = entries(sheet)?;
        found.get(self.entry as usize).copied().ok_or(18)
    }
}

impl Joined {
    /// The sheet of the entries, laid without gaps.
    fn sheet(&self) -> Result<Vec<u8>, u32> {
        let (lengths, joined) = (&self.lengths.elements, &self.joined.elements);
        if lengths.len() > MOST_ENTRIES {
            return Err(16);
        }
        let total: u128 = lengths.iter().map(|length| u128::from(length.0)).sum();
        let most = (1u128 << 32) - 1;
        let long = 2 + 8 * lengths.len() as u128 + total;
        if total != joined.len() as u128 || long > most || long > self.span.len() as u128 {
            return Err(17);
        }
        let mut sheet = (MARK | lengths.len() as u16).to_le_bytes().to_vec();
        let mut offset = 2 + 8 * lengths.len() as u32;
        for length in lengths {
            sheet.extend(offset.to_le_bytes());
            sheet.extend((length.0 as u32).to_le_bytes());
            offset += length.0 as u32;
        }
        sheet.extend(joined);
        Ok(sheet)
    }
}

/// Entries that reach further are far out of any sheet.
const FAR: u64 = 4096;

/// The bytes of a sheet with such entries, `behind` of them past the furthest end, with the mark or without.
fn laid(rng: &mut Rng, entries: &[(u64, u64)], behind: u64) -> Vec<u8> {
    let mark = rng.pick(&[0, MARK, MARK]);
    let mut sheet = (mark | entries.len() as u16).to_le_bytes().to_vec();
    for &(offset, size) in entries {
        sheet.extend((offset as u32).to_le_bytes());
        sheet.extend((size as u32).to_le_bytes());
    }
    let ends = entries.iter().map(|&(offset, size)| offset + size);
    let past = ends.filter(|&end| end <= FAR).max().unwrap_or(0);
    let long = past.max(sheet.len() as u64) + behind;
    let data = sheet.len() as u64..long;
    sheet.extend(data.map(|_| rng.next() as u8));
    sheet
}

/// Entries one behind the other, some of them empty, some of the empty ones inside a full one; gaps between them.
fn some_entries(rng: &mut Rng) -> Vec<(u64, u64)> {
    let count = match rng.below(16) {
        0 => rng.pick(&[0, 31, 32, 33]),
        1 | 2 => rng.within(7, 32),
        _ => rng.within(0, 6),
    };
    let mut at = 2 + 8 * count;
    let mut entries = Vec::new();
    for _ in 0..count {
        let inside = entries.last().filter(|_| rng.one_in(4));
        match inside {
            Some(&(offset, size)) => entries.push((offset + rng.below(size + 1), 0)),
            None => {
                at += rng.pick(&[0, 0, 0, 1, 3]);
                let size = rng.pick(&[0, 1, 1, 2, 3, 8]);
                entries.push((at, size));
                at += size;
            }
        }
        at = entries.iter().fold(at, |at, &(offset, _)| at.max(offset));
    }
    entries
}

/// A number near another, or any.
fn near(rng: &mut Rng, n: u64) -> u64 {
    match rng.below(8) {
        0 => rng.next() & 0xffff_ffff,
        1 => rng.pick(&[0, 1, 2, 0x8000_0000, 0xffff_fffe, 0xffff_ffff]),
        _ => (n + rng.below(7)).saturating_sub(3),
    }
}

/// One fault in the pairs: a number changed, two pairs exchanged.
fn spoil(rng: &mut Rng, entries: &mut [(u64, u64)]) {
    if entries.is_empty() {
        return;
    }
    let at = rng.below(entries.len() as u64) as usize;
    match rng.below(3) {
        0 => entries[at].0 = near(rng, entries[at].0),
        1 => entries[at].1 = near(rng, entries[at].1),
        _ => entries.swap(at, 0),
    }
}

/// One fault in the bytes: a byte of the directory, or fewer bytes.
pub fn damage(rng: &mut Rng, sheet: &mut Vec<u8>, entries: usize) {
    match rng.below(3) {
        0 => sheet[rng.below(2) as usize] = rng.next() as u8,
        1 => sheet[rng.below(2 + 8 * entries as u64) as usize] = rng.next() as u8,
        _ => sheet.truncate(rng.below(sheet.len() as u64 + 1) as usize),
    }
}

fn some_sheet(rng: &mut Rng) -> Slice<u8> {
    let mut entries = some_entries(rng);
    if rng.one_in(3) {
        spoil(rng, &mut entries);
    }
    let behind = rng.pick(&[0, 0, 1, 5]);
    let mut sheet = laid(rng, &entries, behind);
    if rng.one_in(4) {
        damage(rng, &mut sheet, entries.len());
    }
    let listed = sheet.iter().map(|byte| u32::from(*byte)).collect();
    Lent::listed(listed).into()
}

/// The sheet's own count as a rule, and an entry around it.
fn some_reader(rng: &mut Rng) -> Reader {
    let sheet = some_sheet(rng);
    let own = number(&mut &sheet.elements[..], 2).unwrap_or(0) % u64::from(MARK);
    let count = match rng.below(8) {
        0 => rng.pick(&[0, own + 1, own.saturating_sub(1), own + 32768, u64::MAX]),
        _ => own,
    };
    let entry = match rng.below(8) {
        0 => rng.pick(&[count, count.wrapping_add(1), u64::MAX]),
        _ => rng.below(count.clamp(1, 40)),
    };
    Reader {
        sheet,
        count,
        entry,
    }
}

fn some_lengths(rng: &mut Rng) -> Vec<u32> {
    let count = match rng.below(16) {
        0 => rng.within(31, 34),
        1 => 0,
        _ => rng.within(1, 7),
    };
    let length = |_| rng.pick(&[0, 0, 1, 2, 3, 9, 40]);
    (0..count).map(length).collect()
}

fn some_writing(rng: &mut Rng) -> Joined {
    let mut lengths = some_lengths(rng);
    let total: u32 = lengths.iter().sum();
    let bytes = match rng.below(8) {
        0 => u64::from(total).saturating_sub(1),
        1 => u64::from(total) + 1,
        _ => u64::from(total),
    };
    // Now and then lengths whose sum is right modulo 2^64 alone.
    if rng.one_in(16) && !lengths.is_empty() {
        let last = lengths.len() - 1;
        lengths[0] = lengths[0].wrapping_sub(100);
        lengths[last] = lengths[last].wrapping_add(100);
    }
    let long = 2 + 8 * lengths.len() as u64 + bytes;
    let places = settings::places_around(rng, long);
    Joined {
        joined: Lent::listed((0..bytes).map(|_| rng.next() as u32 & 255).collect()).into(),
        lengths: Lent::listed(lengths).into(),
        span: Slice::span(samples::span(rng, places)),
    }
}

pub fn cases(rng: &mut Rng) -> Cases {
    match rng.below(8) {
        0 => {
            let sheet = some_sheet(rng);
            vec![COUNT.of(Sheet { sheet }).0]
        }
        1..=4 => vec![ENTRY.of(some_reader(rng)).0],
        _ => vec![WRITE.of(some_writing(rng)).0],
    }
}
