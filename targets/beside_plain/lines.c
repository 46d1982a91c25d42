// The lines A to E of the bench, in blocks and by feeds of one sample.
#include "beside.h"
#include "gauge_line.h"
#include "plain.h"
#include <stddef.h>

typedef struct {
    const char *blocks, *ones;
    GaugeSettings settings;
    uint32_t tap_count;
} Case;

static const Case cases[] = {
    {"line A, blocks of 64", "line A, feeds of one sample", {3, 16, 2, 2, 32, 8, 0.9f, 0, 0}, 32},
    {"line B, blocks of 64", "line B, feeds of one sample", {3, 1, 2, 2, 32, 8, 0.9f, 0, 0}, 32},
    {"line C, blocks of 64", "line C, feeds of one sample", {1, 1, 1, 0, 32, 8, 0.9f, 0, 0}, 0},
    {"line D, blocks of 64", "line D, feeds of one sample", {3, 4, 4, 5, 64, 16, 0.9f, 0, 0}, 64},
    {"line E, blocks of 64", "line E, feeds of one sample", {8, 8, 1, 1, 64, 16, 0.5f, 0, 0}, 64},
};

static GaugeLine line;
static PlainLine plain;
static uint32_t block;

static void open(const Case *c) {
    const GaugeSettings *s = &c->settings;
    uint32_t bits = 0, r = (uint32_t)s->r;
    accepted(GaugeLine_open(&line, s, fir_taps, c->tap_count, prototype, s->phases * s->phase_taps));
    for (uint64_t gain = 1, k = 0; k < s->stages; k++) {
        gain *= r;
        while (((uint64_t)1 << bits) < gain) {
            bits++;
        }
    }
    plain.bits = bits;
    plain_cic_open(&plain.cic, (uint32_t)s->stages, r);
    plain_fir_open(&plain.fir, fir_taps, c->tap_count, (uint32_t)s->factor);
    plain_stages_open(&plain.stages, table, (uint32_t)s->depth);
    plain_resamp_open(&plain.resamp, (uint32_t)s->phases, (uint32_t)s->phase_taps, prototype, s->step);
}

static uint32_t feed(Outputs *to) {
    uint32_t made = 0;
    for (uint32_t i = 0; i < SAMPLES; i += block) {
        uint64_t taken, written;
        accepted(GaugeLine_feed(&line, samples_i32 + i, block, to->levels + made, SPAN, &taken, &written));
        made += (uint32_t)written;
    }
    return made;
}

static uint32_t feed_plain(Outputs *to) {
    uint32_t made = 0;
    for (uint32_t i = 0; i < SAMPLES; i += block) {
        made += plain_line_feed(&plain, samples_i32 + i, block, to->levels + made);
    }
    return made;
}

void lines(void) {
    for (size_t k = 0; k < sizeof cases / sizeof *cases; k++) {
        block = BLOCK;
        open(&cases[k]);
        beside(cases[k].blocks, SAMPLES, feed, feed_plain);
        block = 1;
        open(&cases[k]);
        beside(cases[k].ones, SAMPLES, feed, feed_plain);
    }
}
