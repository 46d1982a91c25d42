//! Tap sheets of the archive.

use crate::tap_sheet;
use gauge_raw::*;

pub fn sheet_count(call: &mut tap_sheet::Counting) -> u64 {
    let sheet = &call.lent.sheet.elements;
    unsafe { gauge_raw_sheet_count(sheet.as_ptr(), sheet.len() as u64, &mut call.answer.entries) }
}

pub fn sheet_entry(call: &mut tap_sheet::Reading) -> u64 {
    let lent = &call.lent;
    let sheet = &lent.sheet.elements;
    unsafe {
        gauge_raw_sheet_entry(
            sheet.as_ptr(),
            sheet.len() as u64,
            lent.count,
            lent.entry,
            &mut call.answer.offset,
            &mut call.answer.size,
        )
    }
}

pub fn sheet_write(call: &mut tap_sheet::Writing) -> u64 {
    let tap_sheet::Joined {
        joined,
        lengths,
        span,
    } = &mut call.lent;
    unsafe {
        gauge_raw_sheet_write(
            joined.elements.as_ptr(),
            joined.len() as u64,
            lengths.elements.as_ptr().cast(),
            lengths.len() as u64,
            span.elements.as_mut_ptr(),
            span.len() as u64,
            &mut call.answer.written,
        )
    }
}
