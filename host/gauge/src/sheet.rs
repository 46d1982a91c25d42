//! Tap sheets in files: one read whole, an entry as numbers, and what is wrong with a sheet that is refused, told at the pair.

use crate::fault::Fault;
use crate::text::read_bytes;
use gauge_line::limits::{MOST_ENTRIES, SHEET_MARK};
use gauge_line::{Refusal, Sheet};
use std::path::{Path, PathBuf};

/// Bytes of a file that are a sheet.
pub struct SheetFile {
    /// The file.
    pub file: PathBuf,
    /// All of it.
    pub bytes: Vec<u8>,
}

impl SheetFile {
    /// Reads a file; what is in it is looked at when it is asked for.
    pub fn read(file: &Path) -> Result<SheetFile, Fault> {
        let bytes = read_bytes(file).map_err(|why| Fault::file(file, why))?;
        let file = file.to_path_buf();
        Ok(SheetFile { file, bytes })
    }

    /// The sheet, or the pair for which it is refused.
    pub fn sheet(&self) -> Result<Sheet<'_>, Fault> {
        Sheet::read(&self.bytes).map_err(|refusal| {
            let why = match refusal {
                Refusal::Directory => directory(&self.bytes),
                _ => bad_pair(&self.bytes),
            };
            self.refused(refusal, why)
        })
    }

    /// The bytes of an entry.
    pub fn entry(&self, k: usize) -> Result<&[u8], Fault> {
        let sheet = self.sheet()?;
        sheet.entry(k).map_err(|refusal| {
            let why = format!("no entry {k}; it has {}", entries(sheet.len()));
            self.refused(refusal, why)
        })
    }

    fn refused(&self, refusal: Refusal, why: String) -> Fault {
        Fault::file(
            &self.file,
            format_args!("refusal {}: {why}", refusal.number()),
        )
    }
}

/// So many entries, in words.
pub fn entries(count: usize) -> String {
    match count {
        1 => "1 entry".to_string(),
        _ => format!("{count} entries"),
    }
}

/// The entry count as it stands, with the mark, if there is one.
fn count_word(bytes: &[u8]) -> Option<usize> {
    let two = bytes.get(..2)?;
    Some(usize::from(u16::from_le_bytes([two[0], two[1]])))
}

/// Whether the sheet is of the new form, in which empty entries come first.
pub fn is_new(bytes: &[u8]) -> bool {
    count_word(bytes).is_some_and(|word| word >= SHEET_MARK)
}

/// Offsets and lengths as the directory has them, as many as stand there.
pub fn pairs(bytes: &[u8]) -> Vec<(u64, u64)> {
    let number = |at: usize| u32::from_le_bytes([0, 1, 2, 3].map(|i| bytes[at + i])).into();
    let count = count_word(bytes).unwrap_or(0) % SHEET_MARK;
    (0..count)
        .take_while(|k| 10 + 8 * k <= bytes.len())
        .map(|k| (number(2 + 8 * k), number(6 + 8 * k)))
        .collect()
}

// Why a directory is refused.
fn directory(bytes: &[u8]) -> String {
    let Some(word) = count_word(bytes) else {
        return format!("{} bytes, too few for an entry count", bytes.len());
    };
    let count = word % SHEET_MARK;
    if count > MOST_ENTRIES {
        return format!("{count} entries, at most {MOST_ENTRIES}");
    }
    let (wanted, there) = (2 + 8 * count, bytes.len());
    format!(
        "the directory of {} has {wanted} bytes, the sheet {there}",
        entries(count)
    )
}

// The first pair for which the entries are refused.
fn bad_pair(bytes: &[u8]) -> String {
    let (pairs, past) = (pairs(bytes), bytes.len() as u64);
    let data = 2 + 8 * pairs.len() as u64;
    for (j, &(offset, size)) in pairs.iter().enumerate() {
        let end = offset + size;
        if offset < data {
            return format!("entry {j} at {offset} begins inside the directory (0 to {data})");
        }
        if end > past {
            return format!("entry {j} at {offset} ends at {end}, past the sheet's end at {past}");
        }
        let why = behind(&pairs[..j], j, offset, size);
        let why = why.or_else(|| empty_behind(bytes, &pairs[..j], j, offset, size));
        if let Some(why) = why {
            return why;
        }
    }
    "no pair is wrong".to_string()
}

// Why entry j may not stand behind those before it.
fn behind(before: &[(u64, u64)], j: usize, offset: u64, size: u64) -> Option<String> {
    let why = |(i, (from, length)): (usize, &(u64, u64))| {
        let to = from + length;
        if offset < *from {
            return Some(format!(
                "entry {j} at {offset} stands behind entry {i} at {from}"
            ));
        }
        let inside = size > 0 && offset < to;
        inside.then(|| format!("entry {j} at {offset} begins inside entry {i} ({from} to {to})"))
    };
    before.iter().enumerate().find_map(why)
}

// In the new form an empty entry comes before a full one of equal offset.
fn empty_behind(
    bytes: &[u8],
    before: &[(u64, u64)],
    j: usize,
    offset: u64,
    size: u64,
) -> Option<String> {
    let full = |(from, length): &(u64, u64)| *from == offset && *length > 0;
    let i = before.iter().position(full)?;
    let is_wrong = is_new(bytes) && size == 0;
    is_wrong.then(|| {
        format!("entry {j} at {offset} is empty and stands behind entry {i}, which is not")
    })
}

/// A sheet in the new form: the same entries at the same places, each empty one before a full one of equal offset; and the former number of each entry.
pub fn converted(bytes: &[u8]) -> (Vec<u8>, Vec<usize>) {
    let pairs = pairs(bytes);
    let mut order: Vec<usize> = (0..pairs.len()).collect();
    // The order of all others stays: they are sorted by offset already.
    order.sort_by_key(|&k| (pairs[k].0, pairs[k].1 > 0));
    let mut new = ((SHEET_MARK + pairs.len()) as u16).to_le_bytes().to_vec();
    for &k in &order {
        new.extend(&bytes[2 + 8 * k..][..8]);
    }
    new.extend(&bytes[2 + 8 * pairs.len()..]);
    (new, order)
}

#[cfg(test)]
mod tests {
    use super::*;

    fn bytes(word: usize, pairs: &[(u32, u32)], length: usize) -> Vec<u8> {
        let mut bytes = (word as u16).to_le_bytes().to_vec();
        for (offset, size) in pairs {
            bytes.extend(offset.to_le_bytes());
            bytes.extend(size.to_le_bytes());
        }
        bytes.resize(length, 0);
        bytes
    }

    fn told(pairs: &[(u32, u32)], length: usize) -> String {
        told_of(bytes(pairs.len(), pairs, length))
    }

    fn told_new(pairs: &[(u32, u32)], length: usize) -> String {
        told_of(bytes(SHEET_MARK + pairs.len(), pairs, length))
    }

    fn told_of(bytes: Vec<u8>) -> String {
        let file = PathBuf::from("works.sheet");
        let read = SheetFile { file, bytes };
        read.sheet()
            .err()
            .map_or(String::new(), |fault| fault.to_string())
    }

    #[test]
    fn a_refused_sheet_is_told_at_its_pair() {
        let inside = told(&[(26, 128), (30, 0), (90, 2)], 154);
        let said = "works.sheet: refusal 17: entry 2 at 90 begins inside entry 0 (26 to 154)";
        assert_eq!(inside, said);
        assert!(
            told(&[(9, 1)], 12).ends_with("entry 0 at 9 begins inside the directory (0 to 10)")
        );
        assert!(
            told(&[(10, 3)], 12).ends_with("entry 0 at 10 ends at 13, past the sheet's end at 12")
        );
        assert!(
            told(&[(19, 0), (18, 1)], 19).ends_with("entry 1 at 18 stands behind entry 0 at 19")
        );
        assert_eq!(told(&[(10, 0)], 10), "");
    }

    #[test]
    fn a_refused_directory_is_told() {
        assert!(told(&[], 1).ends_with("refusal 16: 1 bytes, too few for an entry count"));
        assert!(told(&[(0, 0); 33], 400).ends_with("refusal 16: 33 entries, at most 32"));
        let cut = told(&[(10, 0)], 9);
        assert!(cut.ends_with("refusal 16: the directory of 1 entry has 10 bytes, the sheet 9"));
    }

    // Whatever a sheet is refused for, a pair is found.
    #[test]
    fn every_refused_sheet_has_its_reason() {
        for k in 0..200_000_u32 {
            let n = |shift: u32, below: u32| (k.wrapping_mul(2_654_435_761) >> shift) % below;
            let pairs = [
                (n(1, 12) + 24, n(5, 5)),
                (n(9, 12) + 24, n(13, 5)),
                (n(17, 14) + 24, n(21, 5)),
            ];
            assert!(!told(&pairs, 38).contains("no pair"));
            assert!(!told_new(&pairs, 38).contains("no pair"));
        }
    }

    #[test]
    fn an_empty_entry_behind_a_full_one_is_told() {
        let pairs = [(18, 1), (18, 0)];
        assert_eq!(told(&pairs, 19), "");
        let said = "entry 1 at 18 is empty and stands behind entry 0, which is not";
        assert!(told_new(&pairs, 19).ends_with(said));
        assert_eq!(told_new(&[(18, 0), (18, 1)], 19), "");
    }

    // Every old sheet has a new one, with the same entries.
    #[test]
    fn what_is_read_is_converted() {
        for k in 0..200_000_u32 {
            let n = |shift: u32, below: u32| (k.wrapping_mul(2_654_435_761) >> shift) % below;
            let pairs = [
                (n(1, 6) + 26, n(5, 3)),
                (n(9, 8) + 26, n(13, 3)),
                (n(17, 10) + 26, n(21, 3)),
            ];
            let old = bytes(3, &pairs, 40);
            let Ok(read) = Sheet::read(&old) else {
                continue;
            };
            let (new, order) = converted(&old);
            let there = Sheet::read(&new).expect("a new sheet");
            for (at, former) in order.into_iter().enumerate() {
                assert_eq!(there.entry(at), read.entry(former));
            }
            assert_eq!(converted(&new).0, new);
        }
    }
}
