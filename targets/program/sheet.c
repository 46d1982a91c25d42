// Tap sheets: written at and past every limit, read back, and read with a byte changed.
#include "gauge_sheet.h"
#include "outputs.h"
#include "print.h"
#include "samples.h"

#define PLACES 400

static uint8_t joined[64];
static uint8_t span[PLACES];
static uint64_t lengths[GAUGE_MOST_ENTRIES + 1];

static void read_back(uint64_t length) {
    GaugeSheet sheet;
    uint64_t offset, size;
    put_number("read", GaugeSheet_read(&sheet, span, length));
    put_number("count", sheet.count);
    for (uint64_t k = 0; k <= sheet.count; k++) {
        put_number("entry", GaugeSheet_entry(&sheet, k, &offset, &size));
        put_number("offset", offset);
        put_number("size", size);
    }
}

static void written(uint64_t entries, uint64_t places) {
    uint64_t bytes = 0, length;
    for (uint64_t k = 0; k < entries; k++) {
        lengths[k] = below(3);
        bytes += lengths[k];
    }
    bytes = bytes > sizeof joined ? sizeof joined : bytes;
    put_number("write", gauge_raw_sheet_write(joined, bytes, lengths, entries, span, places, &length));
    put_number("length", length);
    put_values("span", U8, span, PLACES);
    read_back(length);
}

void sheet_outputs(void) {
    seed(16);
    for (uint64_t i = 0; i < sizeof joined; i++) {
        joined[i] = (uint8_t)below(256);
    }
    for (uint64_t entries = 0; entries <= GAUGE_MOST_ENTRIES + 1; entries++) {
        written(entries, entries % 5 == 4 ? 2 + 8 * entries : PLACES);
        span[below(2 + 8 * (entries % GAUGE_MOST_ENTRIES))] ^= (uint8_t)(1 + below(3));
        read_back(PLACES);
    }
}
