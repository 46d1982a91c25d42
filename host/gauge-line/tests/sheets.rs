//! The smallest sheets on which a reader or a writer could go wrong, and what 02 answers of each.

use gauge_line::limits::SHEET_MARK;
use gauge_line::{Refusal, Sheet};

/// A sheet with such pairs of offset and length, and so many bytes in all, as it was made before request 9: without the mark.
fn sheet(pairs: &[(u32, u32)], length: usize) -> Vec<u8> {
    counted(pairs.len(), pairs, length)
}

/// The same with the mark.
fn new_sheet(pairs: &[(u32, u32)], length: usize) -> Vec<u8> {
    counted(SHEET_MARK + pairs.len(), pairs, length)
}

fn counted(word: usize, pairs: &[(u32, u32)], length: usize) -> Vec<u8> {
    let mut bytes = (word as u16).to_le_bytes().to_vec();
    for (offset, size) in pairs {
        bytes.extend(offset.to_le_bytes());
        bytes.extend(size.to_le_bytes());
    }
    bytes.resize(length, 7);
    bytes
}

fn count(bytes: &[u8]) -> Result<usize, Refusal> {
    Sheet::read(bytes).map(|sheet| sheet.len())
}

#[test]
fn the_directory() {
    assert_eq!(count(b""), Err(Refusal::Directory));
    assert_eq!(count(b"\0"), Err(Refusal::Directory));
    assert_eq!(count(b"\0\0"), Ok(0));
    assert_eq!(count(b"\0\x80"), Ok(0));
    assert_eq!(count(b"\0\x40"), Err(Refusal::Directory));
    let many = new_sheet(&[(266, 0); 33], 266);
    assert_eq!(count(&many), Err(Refusal::Directory));
    assert_eq!(count(&sheet(&[(266, 0); 33], 266)), Err(Refusal::Directory));
    assert_eq!(count(&sheet(&[(258, 0); 32], 258)), Ok(32));
    assert_eq!(count(b"\x01\0\0\0\0\0\0\0\0"), Err(Refusal::Directory));
}

#[test]
fn an_empty_entry_at_the_ends_of_the_data() {
    assert_eq!(count(&sheet(&[(10, 0)], 10)), Ok(1));
    assert_eq!(count(&sheet(&[(11, 0)], 10)), Err(Refusal::Entries));
    assert_eq!(count(&sheet(&[(9, 0)], 10)), Err(Refusal::Entries));
}

#[test]
fn every_pair_is_compared() {
    let hidden = [(26, 10), (30, 0), (31, 2)];
    assert_eq!(count(&sheet(&hidden, 36)), Err(Refusal::Entries));
    let clear = [(26, 10), (30, 0), (36, 1)];
    assert_eq!(count(&sheet(&clear, 37)), Ok(3));
    assert_eq!(count(&new_sheet(&clear, 37)), Ok(3));
    assert_eq!(count(&new_sheet(&hidden, 36)), Err(Refusal::Entries));
    assert_eq!(
        count(&sheet(&[(19, 0), (18, 1)], 19)),
        Err(Refusal::Entries)
    );
}

#[test]
fn an_empty_entry_before_or_after_a_full_one_of_equal_offset() {
    assert_eq!(count(&sheet(&[(18, 1), (18, 0)], 19)), Ok(2));
    assert_eq!(count(&sheet(&[(18, 0), (18, 1)], 19)), Ok(2));
    // With the mark the empty one comes first.
    assert_eq!(
        count(&new_sheet(&[(18, 1), (18, 0)], 19)),
        Err(Refusal::Entries)
    );
    assert_eq!(count(&new_sheet(&[(18, 0), (18, 1)], 19)), Ok(2));
    let apart = [(26, 1), (26, 0), (27, 1)];
    assert_eq!(count(&new_sheet(&apart, 28)), Err(Refusal::Entries));
}

#[test]
fn an_end_past_32_bits_does_not_come_round() {
    let far = [(u32::MAX, u32::MAX)];
    assert_eq!(count(&sheet(&far, 64)), Err(Refusal::Entries));
}

#[test]
fn the_wanted_entry() {
    let bytes = sheet(&[], 2);
    let none = Sheet::read(&bytes).expect("a sheet of no entries");
    assert!(none.is_empty());
    assert_eq!(none.entry(0), Err(Refusal::EntryNumber));
    let bytes = sheet(&[(12, 2)], 16);
    let one = Sheet::read(&bytes).expect("a sheet with gaps");
    assert_eq!(one.entry(0), Ok(&bytes[12..14]));
    assert_eq!(one.entry(1), Err(Refusal::EntryNumber));
}

#[test]
fn a_writer_leaves_a_refused_span_alone() {
    let mut span = [9; 15];
    assert_eq!(
        Sheet::write(b"abcde", &[5], &mut span[..14]),
        Err(Refusal::Entries)
    );
    assert_eq!(
        Sheet::write(b"abcde", &[4], &mut span),
        Err(Refusal::Entries)
    );
    assert_eq!(
        Sheet::write(b"abcde", &[6, usize::MAX], &mut span),
        Err(Refusal::Entries)
    );
    assert_eq!(
        Sheet::write(b"abcde", &[0; 33], &mut span),
        Err(Refusal::Directory)
    );
    assert_eq!(
        Sheet::write(b"abcde", &[0; 40], &mut span),
        Err(Refusal::Directory)
    );
    assert_eq!(span, [9; 15]);
    assert_eq!(Sheet::write(b"abcde", &[5], &mut span), Ok(15));
}

#[test]
fn places_behind_a_sheet_stay() {
    let mut span = [9; 8];
    assert_eq!(Sheet::write(b"", &[], &mut span), Ok(2));
    assert_eq!(span, [0, 128, 9, 9, 9, 9, 9, 9]);
}

/// No byte of these is touched, so no memory is taken.
#[test]
fn a_sheet_past_32_bits_is_refused() {
    let joined = vec![0; (1 << 32) - 10];
    let mut span = vec![0; 16];
    assert_eq!(
        Sheet::write(&joined, &[joined.len()], &mut span),
        Err(Refusal::Entries)
    );
}
