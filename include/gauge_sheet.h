// Tap sheets: entries of bytes behind a directory, as taps arrive from the works. What gauge_line.h says of the caller
// holds here too.
//
// A sheet is a 16-bit entry count, 0 to GAUGE_MOST_ENTRIES, then so many pairs of 32-bit offset and length, sorted by
// offset, then data; all numbers little-endian. Offsets count from the sheet's start. No byte belongs to two entries;
// gaps are allowed, and an entry may be empty.
//
// A new sheet has GAUGE_SHEET_MARK in its count, which readers strip, and its empty entries come before full ones of
// equal offset. Sheets without it, made before that, are read as they were.
#ifndef GAUGE_SHEET_H
#define GAUGE_SHEET_H

#include "gauge_raw.h"
#include "gauge_refusal.h"
#include <stddef.h>
#include <stdint.h>

#ifdef __cplusplus
extern "C" {
#endif

// A reader: the sheet's bytes, which stay the caller's, and its entry count.
typedef struct {
    const uint8_t *bytes;
    uint64_t length;
    uint64_t count;
} GaugeSheet;

// Reads a sheet. Refusals: 16 where the count is over its limit or the bytes end inside the directory, 17 where a pair
// is unsorted, overlaps or leaves the data, or in a new sheet an empty entry stands behind a full one of equal offset.
// A refused reader has no bytes, and every entry of it is refused by 16.
static inline uint64_t GaugeSheet_read(GaugeSheet *sheet, const uint8_t *bytes, uint64_t length) {
    uint64_t number = gauge_raw_sheet_count(bytes, length, &sheet->count);
    sheet->bytes = number == 0 ? bytes : NULL;
    sheet->length = number == 0 ? length : 0;
    return number;
}

// Where entry k stands: sheet->bytes + *offset, *size bytes of it. Refusals: 16, 17, then 18 where k is not below the
// count; *offset and *size are then 0. Any reader may be lent: the whole sheet is looked at again.
static inline uint64_t GaugeSheet_entry(const GaugeSheet *sheet, uint64_t k, uint64_t *offset, uint64_t *size) {
    return gauge_raw_sheet_entry(sheet->bytes, sheet->length, sheet->count, k, offset, size);
}

// Writes the sheet of the entries whose bytes are joined and whose lengths are listed to the front of the span, without
// gaps and with the mark, and answers its length in `written`; the places behind it stay as they were. Reading it
// yields the entries again. Refusals: 16 where there are over GAUGE_MOST_ENTRIES lengths; 17 where they do not add up
// to the bytes, the sheet would pass 2^32 - 1 bytes or the span is too short for it. The span is then as it was, and
// `written` is 0.
// printed: function gauge_raw_sheet_write
uint64_t gauge_raw_sheet_write(
    const uint8_t *joined, uint64_t joined_len, const uint64_t *lengths, uint64_t lengths_len, uint8_t *span,
    uint64_t span_len, uint64_t *written
);
// printed until here

#ifdef __cplusplus
}
#endif

#endif
