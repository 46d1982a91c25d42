// The 16-bit converters: blocks at and past every limit, the FIR sample by sample, and single values.
#include "gauge_q15.h"
#include "outputs.h"
#include "print.h"
#include "samples.h"

#define COUNT(list) (sizeof(list) / sizeof(list)[0])
#define PLACES 40

// One more than a block may have.
static int16_t samples[GAUGE_MOST_BLOCK + 1];
static int16_t coeffs[GAUGE_MOST_BLOCK + 1];
static int16_t dst[GAUGE_MOST_BLOCK + 1];

static void put_block(const char *name, uint64_t refused, uint64_t len, uint64_t written) {
    put_counts(name, refused, len, written);
    put_values("dst", I16, dst, PLACES);
}

static void fir_blocks(uint64_t len, uint64_t taps, uint64_t factor, uint64_t places) {
    uint64_t refused, written, cuts;
    fill_i16(dst, PLACES);
    refused = gauge_raw_polyphase_decimate_q15(samples, len, coeffs, taps, factor, dst, places, &written, &cuts);
    put_block("polyphase_decimate_q15", refused, len, written);
    put_number("cuts", cuts);
    fill_i16(dst, PLACES);
    refused = gauge_raw_polyphase_interpolate_q15(samples, len, coeffs, taps, factor, dst, places, &written, &cuts);
    put_block("polyphase_interpolate_q15", refused, len, written);
    put_number("cuts", cuts);
}

static void all_fir_blocks(void) {
    static const uint64_t lens[] = {0, 1, 9, 100, GAUGE_MOST_BLOCK, GAUGE_MOST_BLOCK + 1};
    static const uint64_t taps[] = {0, 1, 2, 6, 64, GAUGE_MOST_BLOCK, GAUGE_MOST_BLOCK + 1};
    static const uint64_t factors[] = {0, 1, 2, 3, 4096, 4097, 0x100000001};
    static const uint64_t places[] = {0, 5, PLACES, GAUGE_MOST_BLOCK, GAUGE_MOST_BLOCK + 1};
    for (uint64_t i = 0; i < COUNT(lens) * COUNT(taps) * COUNT(factors); i++) {
        uint64_t k = i / COUNT(lens);
        put_number("fir", i);
        uint64_t span = places[below(COUNT(places))];
        fir_blocks(lens[i % COUNT(lens)], taps[k % COUNT(taps)], factors[k / COUNT(taps)], span);
    }
}

static void linear_blocks(void) {
    static const int32_t ratios[] = {INT32_MIN, -1, 0, 1, 30000, 65536, 98765, INT32_MAX};
    static const uint64_t lens[] = {0, 1, 26, GAUGE_MOST_BLOCK, GAUGE_MOST_BLOCK + 1};
    uint64_t refused, written;
    for (uint64_t i = 0; i < COUNT(ratios) * COUNT(lens); i++) {
        uint64_t len = lens[i % COUNT(lens)];
        fill_i16(dst, PLACES);
        refused = gauge_raw_resample_linear_q15(samples, len, dst, PLACES - 2, ratios[i / COUNT(lens)], &written);
        put_block("resample_linear_q15", refused, len, written);
    }
}

static void put_fir(const GaugeFirDecimator *state) {
    const uint64_t numbers[3] = {state->tap_count, state->factor, state->wait};
    put_values("numbers", U64, numbers, 3);
    put_values("taps", I16, state->taps, GAUGE_MOST_TAPS);
    put_values("delay", I16, state->delay, GAUGE_MOST_TAPS);
}

static void fir_samples(GaugeFirDecimator *state, int count) {
    uint64_t made = 0, refused = 0, cut = 0;
    int16_t value = 0;
    for (int i = 0; i < count; i++) {
        refused = GaugeFirDecimator_process_sample(state, sample_i16(), &made, &value, &cut);
        if (made != 0) {
            put_values("value", I16, &value, 1);
            put_number("cut", cut);
        }
    }
    put_counts("sample", refused, made, (uint16_t)value);
}

static void fir_decimator(uint64_t taps, uint64_t factor) {
    GaugeFirDecimator state;
    uint64_t refused = GaugeFirDecimator_new(&state, coeffs, taps, factor);
    put_counts("FirDecimator", refused, taps, factor);
    fir_samples(&state, 150);
    put_fir(&state);
    put_number("reset", GaugeFirDecimator_reset(&state));
    put_fir(&state);
    state.wait = 4097;
    fir_samples(&state, 1);
    put_number("reset", GaugeFirDecimator_reset(&state));
    put_fir(&state);
}

static void values(void) {
    static const int64_t sums[] = {INT64_MIN, -0x100000000, -32769, -32768, 0, 32767, 32768, 0x100000000, INT64_MAX};
    uint64_t cut;
    int16_t value;
    float level;
    for (uint64_t i = 0; i < COUNT(sums); i++) {
        gauge_raw_cut_q15(sums[i], &value, &cut);
        put_number("cut", cut);
        gauge_raw_q15_to_f32(value, &level);
        put_values("cut", I16, &value, 1);
        put_values("level", F32, &level, 1);
        gauge_raw_q15_to_f32(sample_i16(), &level);
        put_values("level", F32, &level, 1);
    }
}

void q15_outputs(void) {
    static const uint64_t taps[] = {0, 1, 5, 64, GAUGE_MOST_TAPS, GAUGE_MOST_TAPS + 1};
    static const uint64_t factors[] = {0, 1, 2, 7, 100, 4096, 4097, 0x100000001};
    seed(2);
    fill_i16(samples, COUNT(samples));
    fill_i16(coeffs, COUNT(coeffs));
    all_fir_blocks();
    linear_blocks();
    values();
    for (uint64_t i = 0; i < COUNT(taps) * COUNT(factors); i++) {
        fir_decimator(taps[i % COUNT(taps)], factors[i / COUNT(taps)]);
    }
}
