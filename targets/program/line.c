// The line: tried, opened, fed in pieces, stepped, parked and taken up, reset, and damaged.
#include "gauge_line.h"
#include "outputs.h"
#include "print.h"
#include "samples.h"

#define COUNT(list) (sizeof(list) / sizeof(list)[0])
#define FEEDS 40
#define PIECE 300
#define SPAN 12

typedef struct {
    GaugeSettings settings;
    uint64_t taps;
    uint64_t prototype;
} Opening;

// Lines with each part on and off, some that neighbours thin, then one refused for each reason.
// clang-format off
static const Opening openings[] = {
    {{1, 1, 0, 0, 0, 0, 0.0f, 0, 0}, 0, 0},
    {{3, 16, 2, 2, 0, 0, 0.0f, 0, 0}, GAUGE_MOST_TAPS, 0},
    {{8, 2, 1, 0, 0, 0, 0.0f, 0, 0}, 5, 0},
    {{2, 3, 0, 5, 0, 0, 0.0f, 0, 0}, 0, 0},
    {{1, 2, 0, 0, 2, 1, 0.5f, 0, 0}, 0, 2},
    {{4, 5, 3, 1, 64, 16, 0.734f, 0, 0}, 20, 1024},
    {{5, 7, 1, 3, 8, 4, 1.37f, 0, 0}, 1, 32},
    {{1, 4096, 4096, 0, 3, 2, 0.015625f, 0, 0}, 2, 6},
    {{2, 1, 1, 0, 7, 3, 64.0f, 0, 0}, 3, 21},
    {{7, 1, 2, 4, 5, 16, 3.3f, 0, 0}, 33, 80},
    {{4, 5, 3, 1, 64, 16, 0.734f, 1, 0}, 20, 1024},
    {{1, 2, 0, 0, 4, 3, 1.0f, 7, 0}, 0, 12},
    {{3, 16, 2, 2, 0, 0, 0.0f, 1, 0}, 64, 0},
    {{3, 16, 2, 2, 0, 0, 0.0f, 0, 1}, GAUGE_MOST_TAPS, 0},
    {{1, 4096, 4096, 0, 3, 2, 0.015625f, 0, 7}, 2, 6},
    {{7, 1, 2, 4, 5, 16, 3.3f, 1, 1}, 33, 80},
    {{9, 1, 0, 0, 0, 0, 0.0f, 0, 0}, 0, 0},
    {{1, 4097, 0, 0, 0, 0, 0.0f, 0, 0}, 0, 0},
    {{1, 48, 0, 0, 0, 0, 0.0f, 0, 1}, 0, 0},
    {{8, 15, 0, 0, 0, 0, 0.0f, 0, 0}, 0, 0},
    {{1, 1, 0x100000001, 0, 0, 0, 0.0f, 0, 0}, 1, 0},
    {{1, 1, 1, 0, 0, 0, 0.0f, 0, 0}, GAUGE_MOST_TAPS + 1, 0},
    {{1, 1, 0, 6, 0, 0, 0.0f, 0, 0}, 0, 0},
    {{1, 1, 0, 0, 1, 1, 1.0f, 0, 0}, 0, 1},
    {{1, 1, 0, 0, 4, 4, 1.0f, 0, 0}, 0, 15},
    {{1, 1, 0, 0, 4, 4, 64.5f, 0, 0}, 0, 16},
};
// clang-format on

static int16_t taps[GAUGE_MOST_TAPS + 1];
static float prototype[1024];
static int32_t samples[PIECE];
static GaugeLine line;
static uint8_t sheet[GAUGE_MOST_PARKED];

static void put_line(void) {
    const uint64_t numbers[11] = {line.stages,     line.r,        line.sample_counter, line.tap_count,
                                  line.factor,     line.wait,     line.depth,          line.phases,
                                  line.phase_taps, line.straight, line.thinning};
    const float floats[2] = {line.mu, line.step};
    put_values("numbers", U64, numbers, 11);
    put_values("integrators", I32, line.integrators, 8);
    put_values("combs", I32, line.combs, 8);
    put_values("neighbours", I32, line.neighbours, GAUGE_MOST_NEIGHBOURS);
    put_values("taps", I16, line.taps, GAUGE_MOST_TAPS);
    put_values("fir_delay", I16, line.fir_delay, GAUGE_MOST_TAPS);
    put_values("delays", F32, line.delays, 480);
    put_values("held", F32, line.held, 5);
    put_values("counts", U64, line.counts, 5);
    put_values("floats", F32, floats, 2);
    put_values("delay", F32, line.delay, 16);
    put_values("prototype", F32, line.prototype, 1024);
    put_number("cuts", GaugeLine_cuts(&line));
}

// Pieces of a stream, until a feed is refused; what one leaves over is fed again.
static void feed_pieces(int small) {
    float out[SPAN];
    uint64_t taken, written, refused = 0;
    GaugePiece piece = {samples, 0};
    for (int feed = 0; feed < FEEDS && refused == 0; feed++) {
        fill_f32(ORDINARY, out, SPAN);
        refused = GaugeLine_feed(&line, piece.samples, piece.len, out, below(SPAN - 1), &taken, &written);
        put_counts("feed", refused, taken, written);
        put_values("out", F32, out, written + 2);
        if (taken >= piece.len) {
            piece.samples = samples;
            piece.len = below(PIECE);
            fill_i32(samples, piece.len);
            // Small samples give levels that are not cut.
            for (uint64_t i = 0; small && i < piece.len; i++) {
                samples[i] /= 65536;
            }
        } else {
            piece.samples += taken;
            piece.len -= taken;
        }
    }
}

static void steps(void) {
    uint64_t taken, written, refused = 0;
    float value;
    fill_i32(samples, PIECE);
    for (uint64_t at = 0, i = 0; i < 60 && refused == 0; i++, at += taken) {
        refused = GaugeLine_step(&line, samples, 20, at, i % 7, &taken, &written, &value);
        put_counts("step", refused, taken, written);
        put_values("value", F32, &value, 1);
    }
}

static void take_up(uint64_t bytes) {
    put_number("take_up", GaugeLine_take_up(&line, sheet, bytes));
    put_line();
}

// Parked where a place is missing and where there are enough, taken up with a byte changed and as it is.
static void parked(void) {
    uint64_t bytes, written;
    put_number("parked_len", GaugeLine_parked_len(&line, &bytes));
    put_number("bytes", bytes);
    put_number("park", GaugeLine_park(&line, sheet, bytes > 0 ? bytes - 1 : 0, &written));
    put_number("park", GaugeLine_park(&line, sheet, sizeof sheet, &written));
    put_values("sheet", U8, sheet, written);
    for (int i = 0; i < 8 && written > 0; i++) {
        uint64_t at = below(i < 4 ? 82 : written);
        uint8_t byte = sheet[at];
        sheet[at] ^= (uint8_t)(1 << below(8));
        take_up(written);
        sheet[at] = byte;
    }
    take_up(written);
}

// A plan of feeds of any lengths, and one with a piece too long.
static void planned(const Opening *opening) {
    uint64_t pieces[FEEDS], spans[FEEDS], taken[FEEDS] = {0}, written[FEEDS] = {0};
    for (int i = 0; i < FEEDS; i++) {
        pieces[i] = below(i % 8 == 0 ? GAUGE_MOST_BLOCK + 1 : PIECE);
        spans[i] = below(SPAN);
    }
    for (int i = 0; i < 2; i++) {
        uint64_t refused = gauge_plan(
            &opening->settings, taps, opening->taps, prototype, opening->prototype, pieces, spans, taken, written, FEEDS
        );
        put_number("plan", refused);
        put_values("taken", U64, taken, FEEDS);
        put_values("written", U64, written, FEEDS);
        pieces[FEEDS - 1] = GAUGE_MOST_BLOCK + 1;
    }
}

static void opened(const Opening *opening) {
    const GaugeSettings *settings = &opening->settings;
    planned(opening);
    uint64_t refused = GaugeLine_open(&line, settings, taps, opening->taps, prototype, opening->prototype);
    put_counts("Line", refused, settings->stages, settings->r);
    put_line();
    feed_pieces(0);
    feed_pieces(1);
    put_line();
    steps();
    parked();
    feed_pieces(1);
    put_number("reset", GaugeLine_reset(&line));
    feed_pieces(1);
    put_line();
    line.sample_counter = line.r;
    line.cuts = UINT32_MAX;
    feed_pieces(1);
    put_number("reset", GaugeLine_reset(&line));
    put_line();
}

void line_outputs(void) {
    seed(5);
    fill_i16(taps, COUNT(taps));
    fill_f32(ORDINARY, prototype, COUNT(prototype));
    for (uint64_t i = 0; i < COUNT(openings); i++) {
        opened(&openings[i]);
    }
}
