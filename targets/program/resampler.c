// The resamplers: settings, steps and ratios of every kind, blocks and pushes, and a place of the next output that no
// opening makes.
#include "gauge_resampler.h"
#include "outputs.h"
#include "print.h"
#include "samples.h"

#define COUNT(list) (sizeof(list) / sizeof(list)[0])
#define LEN 50
#define PLACES 40
#define FEEDS 8

// One more than a block may have.
static float src[GAUGE_MOST_BLOCK + 1], dst[GAUGE_MOST_BLOCK + 1], prototype[1024];

// Ordinary steps and ratios, then: zeros, the least number, the largest, below zero, infinite, a NaN.
static const uint32_t steps[] = {0x3f000000, 0x3f800000, 0x3fb5c28f, 0x406ccccd, 0x3c800000, 0x42800000, 0,
                                 0x80000000, 0x00000001, 0x7f7fffff, 0xbf800000, 0x7f800000, 0x7fc00000};

static void put_resamp(const GaugePolyphaseResamp *state) {
    const uint64_t numbers[3] = {state->phases, state->taps, state->straight};
    const float floats[2] = {state->mu, state->step};
    put_values("numbers", U64, numbers, 3);
    put_values("floats", F32, floats, 2);
    put_values("delay", F32, state->delay, 16);
    put_values("prototype", F32, state->prototype, 1024);
}

// Blocks and pushes, until one is refused.
static void resample(GaugePolyphaseResamp *state, Stream stream) {
    uint64_t taken, written, refused = 0;
    for (int feed = 0; feed < FEEDS && refused == 0; feed++) {
        uint64_t len = below(LEN + 1);
        fill_f32(stream, src, len);
        fill_f32(ORDINARY, dst, PLACES);
        refused = GaugePolyphaseResamp_process_block(state, src, len, dst, below(PLACES - 1), &taken, &written);
        put_counts("block", refused, taken, written);
        put_values("dst", F32, dst, written + 2);
    }
    refused = 0;
    for (int i = 0; i < FEEDS && refused == 0; i++) {
        fill_f32(ORDINARY, dst, PLACES);
        float x = sample_f32(stream);
        refused = GaugePolyphaseResamp_push(state, x, dst, below(5), &written);
        put_counts("push", refused, 1, written);
        put_values("dst", F32, dst, written + 2);
    }
}

typedef uint64_t
Opening(GaugePolyphaseResamp *state, uint64_t phases, uint64_t taps, const float *h, uint64_t h_len, float step);

static void resampler_by(Opening *open, uint64_t phases, uint64_t taps, float step) {
    static GaugePolyphaseResamp state;
    uint64_t len = phases <= 64 && taps <= 16 ? phases * taps : 1024;
    uint64_t refused = open(&state, phases, taps, prototype, len, step);
    put_counts("PolyphaseResamp", refused, phases, taps);
    put_values("step", F32, &step, 1);
    for (int stream = ORDINARY; stream < STREAMS; stream++) {
        resample(&state, (Stream)stream);
    }
    put_number("reset", GaugePolyphaseResamp_reset(&state));
    resample(&state, ORDINARY);
    put_resamp(&state);
}

// In wrapped and in straight phase.
static void resampler(uint64_t phases, uint64_t taps, float step) {
    resampler_by(GaugePolyphaseResamp_from_taps, phases, taps, step);
    resampler_by(GaugePolyphaseResamp_from_taps_straight, phases, taps, step);
}

// A prototype phase by phase and back, into a span that may be one place longer than it is.
static void phase_rows(uint64_t phases, uint64_t taps, uint64_t longer) {
    static float rows[1025], back[1024];
    uint64_t len = phases <= 64 && taps <= 16 ? phases * taps : 1024, written;
    fill_f32(ORDINARY, rows, 1025);
    fill_f32(ORDINARY, back, 1024);
    uint64_t refused = gauge_raw_prototype_by_phase(phases, taps, prototype, len, rows, len + longer, &written);
    put_counts("prototype_by_phase", refused, len, written);
    put_values("rows", F32, rows, 1025);
    refused = gauge_raw_prototype_by_tap(phases, taps, rows, len, back, len, &written);
    put_counts("prototype_by_tap", refused, len, written);
    put_values("back", F32, back, 1024);
}

// A state that no opening makes.
static void damaged(uint32_t mu) {
    static GaugePolyphaseResamp state;
    uint64_t refused = GaugePolyphaseResamp_from_taps(&state, 4, 4, prototype, 16, 1.5f);
    put_number("damaged", refused);
    state.mu = float_of(mu);
    resample(&state, ORDINARY);
    put_resamp(&state);
}

static void linear_block(Stream stream, uint64_t len, uint64_t places, float ratio) {
    uint64_t written;
    fill_f32(stream, src, len);
    fill_f32(ORDINARY, dst, PLACES);
    uint64_t refused = gauge_raw_resample_linear_f32(src, len, dst, places, ratio, &written);
    put_counts("resample_linear_f32", refused, len, written);
    put_values("dst", F32, dst, PLACES);
}

static void linear(float ratio) {
    for (int stream = ORDINARY; stream < STREAMS; stream++) {
        for (uint64_t len = 0; len <= LEN; len += 10) {
            linear_block((Stream)stream, len, PLACES - 2, ratio);
        }
    }
    linear_block(ORDINARY, GAUGE_MOST_BLOCK, GAUGE_MOST_BLOCK, ratio);
    linear_block(ORDINARY, GAUGE_MOST_BLOCK + 1, PLACES, ratio);
    linear_block(ORDINARY, LEN, GAUGE_MOST_BLOCK + 1, ratio);
}

void resampler_outputs(void) {
    static const uint64_t phases[] = {0, 1, 2, 7, 64, 65, 0x100000002};
    static const uint64_t taps[] = {0, 1, 5, 16, 17, 0x100000001};
    seed(4);
    fill_f32(ORDINARY, prototype, COUNT(prototype));
    for (uint64_t i = 0; i < COUNT(phases) * COUNT(taps); i++) {
        resampler(phases[i % COUNT(phases)], taps[i / COUNT(phases)], 0.734f);
        phase_rows(phases[i % COUNT(phases)], taps[i / COUNT(phases)], i % 3 / 2);
    }
    for (uint64_t i = 0; i < COUNT(steps); i++) {
        resampler(3, 2, float_of(steps[i]));
        linear(float_of(steps[i]));
    }
    // A NaN, then about -2^24 and about 1 + step.
    damaged(0x7fc00000);
    damaged(0xcb800000);
    damaged(0xcb800001);
    damaged(0x40200000);
    damaged(0x40200001);
}
