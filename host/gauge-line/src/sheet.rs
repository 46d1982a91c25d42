//! Tap sheets: entries of bytes behind a directory, as taps arrive from the works.

use crate::raw;
use crate::refusal::{Refusal, answered};

/// A sheet that was read: its bytes and its entry count. An entry is a part of those bytes, and is handed out only where every entry of the sheet is sound.
///
/// A sheet is a 16-bit entry count, 0 to 32, then so many pairs of 32-bit offset and length, sorted by offset, then data; all numbers little-endian. Offsets count from the
/// sheet's start. No byte belongs to two entries; gaps are allowed, and an entry may be empty.
///
/// A new sheet has [`SHEET_MARK`](crate::limits::SHEET_MARK) in its count, which readers strip, and its empty entries come before full ones of equal offset. Sheets without it, made
/// before that, are read as they were.
///
/// ```
/// use gauge_line::{Refusal, Sheet};
///
/// let mut bytes = [0; 64];
/// let length = Sheet::write(b"abcde", &[3, 0, 2], &mut bytes)?;
/// let sheet = Sheet::read(&bytes[..length])?;
/// assert_eq!(sheet.len(), 3);
/// assert_eq!(sheet.entry(0)?, b"abc");
/// assert_eq!(sheet.entry(1)?, b"");
/// assert_eq!(sheet.entry(2)?, b"de");
/// assert_eq!(sheet.entry(3), Err(Refusal::EntryNumber));
/// # Ok::<(), Refusal>(())
/// ```
#[derive(Clone, Copy, Debug)]
pub struct Sheet<'a> {
    bytes: &'a [u8],
    count: u64,
}

impl<'a> Sheet<'a> {
    /// The sheet that the bytes are.
    ///
    /// Refused: `Directory` where the count is over 32 or the bytes end inside the directory; `Entries` where a pair is unsorted, overlaps or leaves the data, or in a new sheet an empty entry stands behind a full one
    /// of equal offset.
    pub fn read(bytes: &'a [u8]) -> Result<Self, Refusal> {
        let mut count = 0;
        // SAFETY: the pointer is lent with the length of its slice.
        let number =
            unsafe { raw::gauge_raw_sheet_count(bytes.as_ptr(), bytes.len() as u64, &mut count) };
        answered(number, Sheet { bytes, count })
    }

    /// How many entries it has.
    pub fn len(&self) -> usize {
        self.count as usize
    }

    /// Whether it has none.
    pub fn is_empty(&self) -> bool {
        self.count == 0
    }

    /// Entry k, a part of the sheet's bytes.
    ///
    /// Refused: `EntryNumber` where k is not below the count.
    pub fn entry(&self, k: usize) -> Result<&'a [u8], Refusal> {
        let (mut offset, mut size) = (0, 0);
        // SAFETY: the pointer is lent with the length of its slice.
        let number = unsafe {
            raw::gauge_raw_sheet_entry(
                self.bytes.as_ptr(),
                self.bytes.len() as u64,
                self.count,
                k as u64,
                &mut offset,
                &mut size,
            )
        };
        let (offset, size) = (offset as usize, size as usize);
        answered(number, &self.bytes[offset..offset + size])
    }

    /// Writes the sheet of the entries whose bytes are joined and whose lengths are listed to the front of the span, without gaps and with the mark, and answers its length; the places behind it
    /// stay as they were. [`Sheet::read`] of it yields the entries again.
    ///
    /// Refused: `Directory` where there are over 32 lengths; `Entries` where they do not add up to the bytes, the sheet would pass 2^32 − 1 bytes or the span is too short.
    pub fn write(joined: &[u8], lengths: &[usize], span: &mut [u8]) -> Result<usize, Refusal> {
        let mut listed = [0; MOST_LISTED];
        // One length too many is refused as any other number of them is.
        let count = lengths.len().min(MOST_LISTED);
        for (listed, length) in listed.iter_mut().zip(lengths) {
            *listed = *length as u64;
        }
        let mut written = 0;
        // SAFETY: each pointer is lent with the length of its own slice; `listed` has at least `count` places.
        let number = unsafe {
            raw::gauge_raw_sheet_write(
                joined.as_ptr(),
                joined.len() as u64,
                listed.as_ptr(),
                count as u64,
                span.as_mut_ptr(),
                span.len() as u64,
                &mut written,
            )
        };
        answered(number, written as usize)
    }
}

const MOST_LISTED: usize = crate::limits::MOST_ENTRIES + 1;
