// The CIC converters: every pair of settings, then blocks of any length, samples, and a counter out of range.
#include "gauge_cic.h"
#include "outputs.h"
#include "print.h"
#include "samples.h"

#define FEEDS 12
#define SPAN 64
#define BLOCK (2 * GAUGE_MOST_FACTOR + 40)

// Limits, what lies past them, and numbers that are within them in 32 bits alone.
static const uint64_t stages_wanted[] = {0, 1, 2, 3, 5, 8, 9, 0x100000001, UINT64_MAX};
static const uint64_t factors_wanted[] = {0, 1, 2, 3, 16, 255, 4096, 4097, 0x100000002, UINT64_MAX};
#define COUNT(list) (sizeof(list) / sizeof(list)[0])

static void put_decimator(const GaugeCicDecimator *state) {
    const uint64_t numbers[3] = {state->stages, state->r, state->sample_counter};
    put_values("numbers", U64, numbers, 3);
    put_values("integrators", I32, state->integrators, 8);
    put_values("combs", I32, state->combs, 8);
}

static void put_decimator_gain(const GaugeCicDecimator *state) {
    uint64_t answer[4];
    uint32_t bits;
    answer[0] = GaugeCicDecimator_gain(state, &answer[1]);
    answer[2] = GaugeCicDecimator_gain_bits(state, &bits);
    answer[3] = bits;
    put_values("gain", U64, answer, 4);
    int32_t range[2];
    answer[0] = GaugeCicDecimator_exact_range(state, &range[0], &range[1]);
    put_values("exact range refused", U64, answer, 1);
    put_values("exact range", I32, range, 2);
}

// Blocks of any length, until one is refused.
static void decimate_blocks(GaugeCicDecimator *state) {
    static int32_t src[BLOCK];
    int32_t dst[SPAN];
    uint64_t taken, written, refused = 0;
    for (int feed = 0; feed < FEEDS && refused == 0; feed++) {
        uint64_t len = below(state->r <= GAUGE_MOST_FACTOR ? 2 * state->r + 40 : 40);
        uint64_t places = below(SPAN + 1);
        fill_i32(src, len);
        fill_i32(dst, SPAN);
        refused = GaugeCicDecimator_process_block(state, src, len, dst, places, &taken, &written);
        put_counts("block", refused, taken, written);
        put_values("dst", I32, dst, written + 2 < SPAN ? written + 2 : SPAN);
    }
}

// One by one; what is made is printed, and the last answer.
static void decimate_samples(GaugeCicDecimator *state) {
    uint64_t made = 0, refused = 0;
    int32_t sum = 0;
    for (int i = 0; i < 40; i++) {
        refused = GaugeCicDecimator_process_sample(state, sample_i32(), &made, &sum);
        if (made != 0) {
            put_values("sum", I32, &sum, 1);
        }
    }
    put_counts("sample", refused, made, (uint32_t)sum);
    for (int i = 0; i < 40; i++) {
        refused = GaugeCicDecimator_process_sample_scaled(state, sample_i32(), &made, &sum);
        if (made != 0) {
            put_values("scaled", I32, &sum, 1);
        }
    }
    put_counts("scaled", refused, made, (uint32_t)sum);
}

static void decimator(uint64_t stages, uint64_t r) {
    GaugeCicDecimator state;
    uint64_t refused = GaugeCicDecimator_new(&state, stages, r);
    put_counts("CicDecimator", refused, stages, r);
    put_decimator_gain(&state);
    decimate_blocks(&state);
    decimate_samples(&state);
    put_decimator(&state);
    state.sample_counter = r;
    decimate_blocks(&state);
    put_decimator(&state);
}

// As the CIC decimator, one by one; then a place out of range.
static void neighbours(uint64_t stages, uint64_t r) {
    GaugeNonrecursiveDecimator state;
    uint64_t made = 0, gain, answer = GaugeNonrecursiveDecimator_new(&state, stages, r);
    uint32_t bits;
    int32_t sum = 0;
    put_counts("NonrecursiveDecimator", answer, stages, r);
    answer = GaugeNonrecursiveDecimator_gain(&state, &gain);
    put_counts("gain", answer, gain, GaugeNonrecursiveDecimator_gain_bits(&state, &bits));
    put_number("bits", bits);
    for (int i = 0; i < 100; i++) {
        answer = i < 60 ? GaugeNonrecursiveDecimator_process_sample(&state, sample_i32(), &made, &sum)
                        : GaugeNonrecursiveDecimator_process_sample_scaled(&state, sample_i32(), &made, &sum);
        if (made != 0) {
            put_values("sum", I32, &sum, 1);
        }
    }
    put_counts("sample", answer, made, state.place);
    int32_t src[600], dst[SPAN];
    uint64_t taken, written;
    fill_i32(src, 600);
    fill_i32(dst, SPAN);
    answer = GaugeNonrecursiveDecimator_process_block(&state, src, 600, dst, SPAN, &taken, &written);
    put_counts("block", answer, taken, written);
    put_values("dst", I32, dst, SPAN);
    put_values("neighbours", I32, state.neighbours, GAUGE_MOST_NEIGHBOURS);
    state.place = r;
    put_number("past its factor", GaugeNonrecursiveDecimator_process_sample(&state, 1, &made, &sum));
}

static void put_interpolator(const GaugeCicInterpolator *state) {
    const uint64_t numbers[2] = {state->stages, state->r};
    put_values("numbers", U64, numbers, 2);
    put_values("combs", I32, state->combs, 8);
    put_values("integrators", I32, state->integrators, 8);
}

// Blocks of a few samples, with a span from none to some more than they need.
static void interpolate_blocks(GaugeCicInterpolator *state) {
    static int32_t dst[3 * GAUGE_MOST_FACTOR + 2];
    int32_t src[8];
    for (int feed = 0; feed < FEEDS; feed++) {
        uint64_t r = state->r <= GAUGE_MOST_FACTOR ? state->r : 2;
        uint64_t len = below(8), places = below(3 * r + 2), taken, written;
        fill_i32(src, 8);
        fill_i32(dst, places + 2);
        uint64_t refused = GaugeCicInterpolator_process_block(state, src, len, dst, places, &taken, &written);
        put_counts("block", refused, taken, written);
        put_values("dst", I32, written <= SPAN ? dst : dst + written - SPAN, written <= SPAN ? written + 2 : SPAN + 2);
    }
}

static void interpolator(uint64_t stages, uint64_t r) {
    static int32_t out[GAUGE_MOST_FACTOR + 2];
    GaugeCicInterpolator state;
    uint64_t written, gain, answer = GaugeCicInterpolator_new(&state, stages, r);
    uint32_t bits;
    put_counts("CicInterpolator", answer, stages, r);
    answer = GaugeCicInterpolator_gain(&state, &gain);
    put_counts("gain", answer, gain, GaugeCicInterpolator_gain_bits(&state, &bits));
    put_number("bits", bits);
    for (int i = 0; i < FEEDS; i++) {
        // From one too few to two more than are needed.
        uint64_t places = r != 0 && r <= GAUGE_MOST_FACTOR ? r - 1 + below(4) : 2;
        answer = GaugeCicInterpolator_process_sample(&state, sample_i32(), out, places, &written);
        put_counts("sample", answer, places, written);
        put_values("out", I32, written <= SPAN ? out : out + written - SPAN, written <= SPAN ? written + 2 : SPAN + 2);
    }
    interpolate_blocks(&state);
    put_interpolator(&state);
}

void cic_outputs(void) {
    seed(1);
    for (uint64_t i = 0; i < COUNT(stages_wanted); i++) {
        for (uint64_t k = 0; k < COUNT(factors_wanted); k++) {
            decimator(stages_wanted[i], factors_wanted[k]);
            neighbours(stages_wanted[i], factors_wanted[k]);
            interpolator(stages_wanted[i], factors_wanted[k]);
        }
    }
}
