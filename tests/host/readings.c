// Every function of the headers, called once or more: 01's readings, refusals, and a damaged state.
#include "gauge_cic.h"
#include "gauge_half_band.h"
#include "gauge_line.h"
#include "gauge_linear_phase.h"
#include "gauge_q15.h"
#include "gauge_resampler.h"
#include "gauge_sheet.h"
#include <stdio.h>
#include <string.h>

static int failures = 0;

#define CHECK(condition)                                                                                               \
    do {                                                                                                               \
        if (!(condition)) {                                                                                            \
            printf("%s:%d: %s\n", __FILE__, __LINE__, #condition);                                                     \
            failures++;                                                                                                \
        }                                                                                                              \
    } while (0)

static void cic_decimator(void) {
    GaugeCicDecimator state;
    const int32_t src[8] = {1, 2, 3, 4, 5, 6, 7, 8};
    int32_t dst[3] = {-1, -1, -1};
    uint64_t taken, written, made, gain;
    uint32_t bits;
    int32_t sum, least, greatest;
    CHECK(GaugeCicDecimator_new(&state, 1, 4) == GAUGE_NOT_REFUSED);
    CHECK(GaugeCicDecimator_process_block(&state, src, 8, dst, 3, &taken, &written) == GAUGE_NOT_REFUSED);
    CHECK(taken == 8 && written == 2 && dst[0] == 10 && dst[1] == 26 && dst[2] == -1);

    CHECK(GaugeCicDecimator_new(&state, 3, 5) == GAUGE_NOT_REFUSED);
    CHECK(GaugeCicDecimator_gain(&state, &gain) == GAUGE_NOT_REFUSED && gain == 125);
    CHECK(GaugeCicDecimator_gain_bits(&state, &bits) == GAUGE_NOT_REFUSED && bits == 7);
    CHECK(GaugeCicDecimator_exact_range(&state, &least, &greatest) == GAUGE_NOT_REFUSED);
    CHECK(least == -16777216 && greatest == 16777215);
    CHECK(GaugeCicDecimator_process_sample(&state, 1, &made, &sum) == GAUGE_NOT_REFUSED && made == 0 && sum == 0);
    CHECK(state.sample_counter == 1 && state.integrators[0] == 1 && state.combs[0] == 0);

    CHECK(GaugeCicDecimator_new(&state, 1, 2) == GAUGE_NOT_REFUSED);
    CHECK(GaugeCicDecimator_process_sample_scaled(&state, -1, &made, &sum) == GAUGE_NOT_REFUSED && made == 0);
    CHECK(GaugeCicDecimator_process_sample_scaled(&state, 0, &made, &sum) == GAUGE_NOT_REFUSED);
    CHECK(made == 1 && sum == -1);
    CHECK(GaugeCicDecimator_new(&state, 8, 15) == GAUGE_NOT_REFUSED);
    CHECK(GaugeCicDecimator_exact_range(&state, &least, &greatest) == GAUGE_REFUSED_GAIN_BITS);
    CHECK(least == 0 && greatest == 0);
    CHECK(GaugeCicDecimator_new(&state, 9, 2) == GAUGE_REFUSED_STAGES && state.stages == 0);
    CHECK(GaugeCicDecimator_gain(&state, &gain) == GAUGE_REFUSED_STATE && gain == 0);
}

static void cic_interpolator(void) {
    GaugeCicInterpolator state;
    int32_t out[2];
    uint64_t written, gain;
    uint32_t bits;
    CHECK(GaugeCicInterpolator_new(&state, 2, 2) == GAUGE_NOT_REFUSED);
    CHECK(GaugeCicInterpolator_gain(&state, &gain) == GAUGE_NOT_REFUSED && gain == 2);
    CHECK(GaugeCicInterpolator_gain_bits(&state, &bits) == GAUGE_NOT_REFUSED && bits == 1);
    CHECK(GaugeCicInterpolator_process_sample(&state, 3, out, 2, &written) == GAUGE_NOT_REFUSED);
    CHECK(written == 2 && out[0] == 3 && out[1] == 6);
    CHECK(GaugeCicInterpolator_process_sample(&state, 3, out, 1, &written) == GAUGE_REFUSED_SPAN && written == 0);
    const int32_t src[3] = {3, 3, 3};
    int32_t dst[5] = {7, 7, 7, 7, 7};
    uint64_t taken;
    CHECK(GaugeCicInterpolator_process_block(&state, src, 3, dst, 5, &taken, &written) == GAUGE_NOT_REFUSED);
    CHECK(taken == 2 && written == 4 && dst[0] == 6 && dst[1] == 6 && dst[2] == 6 && dst[3] == 6 && dst[4] == 7);
    CHECK(GaugeCicInterpolator_process_block(&state, src, 3, dst, 1, &taken, &written) == GAUGE_REFUSED_SPAN);
    CHECK(taken == 0 && written == 0 && dst[0] == 6);
}

static void q15_blocks(void) {
    const int16_t ones[2] = {1, 1};
    const int16_t minus[2] = {-1, -1};
    const int16_t up[2] = {16384, 8192};
    const int16_t sample[1] = {16384};
    const int16_t ramp[2] = {0, 100};
    const int16_t tops[3] = {32767, 32767, 32767};
    int16_t dst[4];
    uint64_t written, cuts, cut;
    int16_t value;
    float level;
    CHECK(gauge_raw_polyphase_decimate_q15(minus, 2, ones, 2, 1, dst, 4, &written, &cuts) == GAUGE_NOT_REFUSED);
    CHECK(written == 1 && dst[0] == -2 && cuts == 0);
    CHECK(gauge_raw_polyphase_decimate_q15(tops, 3, tops, 2, 1, dst, 4, &written, &cuts) == GAUGE_NOT_REFUSED);
    CHECK(written == 2 && dst[0] == 32767 && dst[1] == 32767 && cuts == 2);
    CHECK(gauge_raw_polyphase_decimate_q15(minus, 2, ones, 2, 0, dst, 4, &written, &cuts) == GAUGE_REFUSED_FIR_FACTOR);
    CHECK(written == 0 && cuts == 0);
    CHECK(gauge_raw_polyphase_interpolate_q15(sample, 1, up, 2, 2, dst, 4, &written, &cuts) == GAUGE_NOT_REFUSED);
    CHECK(written == 2 && dst[0] == 16384 && dst[1] == 8192 && cuts == 0);
    CHECK(gauge_raw_polyphase_interpolate_q15(tops, 1, tops, 2, 2, dst, 1, &written, &cuts) == GAUGE_NOT_REFUSED);
    CHECK(written == 1 && dst[0] == 32767 && cuts == 1);
    CHECK(gauge_raw_resample_linear_q15(ramp, 2, dst, 4, 32768, &written) == GAUGE_NOT_REFUSED);
    CHECK(written == 4 && dst[0] == 0 && dst[1] == 50 && dst[2] == 100 && dst[3] == 100);
    gauge_raw_cut_q15(40000, &value, &cut);
    CHECK(value == 32767 && cut == 1);
    gauge_raw_cut_q15(-32768, &value, &cut);
    CHECK(value == -32768 && cut == 0);
    gauge_raw_q15_to_f32(-16384, &level);
    CHECK(level == -0.5f);
}

static void fir_decimator(void) {
    GaugeFirDecimator state;
    const int16_t taps[2] = {1, 1};
    const int16_t least[1] = {-32768};
    uint64_t made, cut;
    int16_t value;
    CHECK(GaugeFirDecimator_new(&state, taps, 2, 3) == GAUGE_NOT_REFUSED);
    CHECK(state.taps[1] == 1 && state.tap_count == 2 && state.factor == 3 && state.wait == 2);
    CHECK(GaugeFirDecimator_process_sample(&state, -1, &made, &value, &cut) == GAUGE_NOT_REFUSED && made == 0);
    CHECK(GaugeFirDecimator_process_sample(&state, -1, &made, &value, &cut) == GAUGE_NOT_REFUSED);
    CHECK(made == 1 && value == -2 && cut == 0 && state.wait == 3);
    CHECK(GaugeFirDecimator_reset(&state) == GAUGE_NOT_REFUSED && state.wait == 2 && state.delay[0] == 0);
    CHECK(GaugeFirDecimator_new(&state, least, 1, 1) == GAUGE_NOT_REFUSED);
    CHECK(GaugeFirDecimator_process_sample(&state, -32768, &made, &value, &cut) == GAUGE_NOT_REFUSED);
    CHECK(made == 1 && value == 32767 && cut == 1);
    CHECK(GaugeFirDecimator_new(&state, NULL, 0, 0) == GAUGE_REFUSED_FIR_FACTOR);
    CHECK(GaugeFirDecimator_new(&state, NULL, 0, 1) == GAUGE_REFUSED_TAPS && state.factor == 0);
    CHECK(GaugeFirDecimator_process_sample(&state, 7, &made, &value, &cut) == GAUGE_REFUSED_STATE);
    CHECK(made == 0 && value == 0 && cut == 0);
    CHECK(GaugeFirDecimator_reset(&state) == GAUGE_REFUSED_STATE);
}

static void half_band_stages(void) {
    GaugeHbfDec down;
    GaugeHbfInt up;
    const float tap[1] = {0.5f};
    const float src[4] = {1.0f, 0.0f, 0.0f, 0.0f};
    float dst[4], value, even, odd;
    uint64_t written;
    CHECK(GaugeHbfDec_new(&down, tap, 1) == GAUGE_NOT_REFUSED);
    CHECK(GaugeHbfDec_process_pair(&down, 1.0f, 0.0f, &value) == GAUGE_NOT_REFUSED && value == 0.25f);
    CHECK(GaugeHbfDec_reset(&down) == GAUGE_NOT_REFUSED);
    CHECK(GaugeHbfDec_process(&down, src, 4, dst, 4, &written) == GAUGE_NOT_REFUSED);
    CHECK(written == 2 && dst[0] == 0.25f && dst[1] == 0.25f);
    CHECK(GaugeHbfDec_new(&down, tap, 0) == GAUGE_REFUSED_HALF_BAND_TAPS);

    CHECK(GaugeHbfInt_new(&up, tap, 1) == GAUGE_NOT_REFUSED);
    CHECK(GaugeHbfInt_process_sample(&up, 1.0f, &even, &odd) == GAUGE_NOT_REFUSED && even == 1.0f && odd == 0.5f);
    CHECK(GaugeHbfInt_reset(&up) == GAUGE_NOT_REFUSED);
    CHECK(GaugeHbfInt_process(&up, src, 2, dst, 4, &written) == GAUGE_NOT_REFUSED);
    CHECK(written == 4 && dst[0] == 1.0f && dst[1] == 0.5f && dst[2] == 0.0f && dst[3] == 0.5f);
}

// The stream and the block of one depth write the same.
static void half_band_cascades(void) {
    GaugeHbfDecCascade down;
    GaugeHbfIntCascade up;
    GaugeHbfStream stream;
    const float src[4] = {1.0f, 1.0f, 1.0f, 1.0f};
    float dst[4], value = 0.0f;
    uint64_t written, made = 0;
    CHECK(GaugeHbfDecCascade_new(&down, 2) == GAUGE_NOT_REFUSED && down.depth == 2);
    CHECK(GaugeHbfDecCascade_process(&down, src, 4, dst, 4, &written) == GAUGE_NOT_REFUSED && written == 1);
    CHECK(GaugeHbfStream_new(&stream, 2) == GAUGE_NOT_REFUSED);
    for (int i = 0; i < 4; i++) {
        CHECK(GaugeHbfStream_process_sample(&stream, src[i], &made, &value) == GAUGE_NOT_REFUSED);
        CHECK(made == (i == 3));
    }
    CHECK(value == dst[0] && value != 0.0f);
    CHECK(GaugeHbfDecCascade_reset(&down) == GAUGE_NOT_REFUSED && down.delays[0] == 0.0f);
    CHECK(GaugeHbfStream_reset(&stream) == GAUGE_NOT_REFUSED && stream.counts[0] == 0);
    stream.counts[1] = 2;
    CHECK(GaugeHbfStream_process_sample(&stream, 1.0f, &made, &value) == GAUGE_REFUSED_STATE && stream.counts[1] == 2);

    CHECK(GaugeHbfStream_new(&stream, 0) == GAUGE_REFUSED_DEPTH && stream.depth == 0);
    CHECK(GaugeHbfStream_process_sample(&stream, 1.0f, &made, &value) == GAUGE_REFUSED_STATE && made == 0);
    CHECK(GaugeHbfStream_reset(&stream) == GAUGE_REFUSED_STATE);

    CHECK(GaugeHbfIntCascade_new(&up, 0) == GAUGE_REFUSED_DEPTH);
    CHECK(GaugeHbfIntCascade_new(&up, 1) == GAUGE_NOT_REFUSED);
    CHECK(GaugeHbfIntCascade_process(&up, src, 4, dst, 4, &written) == GAUGE_NOT_REFUSED && written == 4);
    CHECK(GaugeHbfIntCascade_reset(&up) == GAUGE_NOT_REFUSED);
}

static void half_band_values(void) {
    float taps[GAUGE_HBF_TABLE];
    uint64_t length;
    gauge_raw_hbf_tap_table(taps);
    CHECK(taps[42] == 0.01186105f && taps[44] == 0.58622005f);
    CHECK(gauge_raw_hbf_dec_response_length(5, &length) == GAUGE_NOT_REFUSED && length == 29);
    CHECK(gauge_raw_hbf_int_response_length(5, &length) == GAUGE_NOT_REFUSED && length == 958);
    CHECK(gauge_raw_hbf_int_response_length(6, &length) == GAUGE_REFUSED_DEPTH && length == 0);
}

// What an impulse of 1 becomes, by the four openings.
static void linear_phase_kinds(void) {
    typedef uint64_t Opening(GaugeLinearPhaseFir *, const float *, uint64_t);
    Opening *const openings[4] = {
        GaugeLinearPhaseFir_odd_symmetric, GaugeLinearPhaseFir_even_symmetric, GaugeLinearPhaseFir_odd_antisymmetric,
        GaugeLinearPhaseFir_even_antisymmetric};
    const float responses[4][6] = {
        {0.25f, 0.5f, 1.0f, 0.5f, 0.25f, 0.0f},
        {0.25f, 0.5f, 0.5f, 0.25f, 0.0f, 0.0f},
        {0.25f, 0.5f, 0.0f, -0.5f, -0.25f, 0.0f},
        {0.25f, 0.5f, -0.5f, -0.25f, 0.0f, 0.0f}};
    const uint64_t lengths[4] = {4, 3, 4, 3};
    const float taps[2] = {0.25f, 0.5f};
    for (int kind = 0; kind < 4; kind++) {
        GaugeLinearPhaseFir filter;
        float span[6] = {1.0f, 0.0f, 0.0f, 0.0f, 0.0f, 0.0f};
        uint64_t written, length;
        CHECK(openings[kind](&filter, taps, 2) == GAUGE_NOT_REFUSED && filter.m == 2 && filter.taps[1] == 0.5f);
        CHECK(GaugeLinearPhaseFir_response_length(&filter, &length) == GAUGE_NOT_REFUSED && length == lengths[kind]);
        CHECK(GaugeLinearPhaseFir_inplace(&filter, span, 6, &written) == GAUGE_NOT_REFUSED && written == 6);
        for (int i = 0; i < 6; i++) {
            CHECK(span[i] == responses[kind][i]);
        }
    }
}

static void linear_phase_calls(void) {
    GaugeLinearPhaseFir filter;
    const float taps[24] = {1.0f};
    const float src[3] = {1.0f, 3.0f, 6.0f};
    float span[4] = {-1.0f, -1.0f, -1.0f, -1.0f}, value;
    uint64_t written, length;
    CHECK(GaugeLinearPhaseFir_new(&filter, 0, 7, taps, 1) == GAUGE_NOT_REFUSED);
    CHECK(filter.odd == 0 && filter.antisymmetric == 1 && filter.delay[0] == 0.0f);
    CHECK(GaugeLinearPhaseFir_block(&filter, src, 3, span, 4, &written) == GAUGE_REFUSED_LENGTHS);
    CHECK(written == 0 && span[0] == -1.0f && filter.delay[0] == 0.0f);
    CHECK(GaugeLinearPhaseFir_block(&filter, src, 3, span, 3, &written) == GAUGE_NOT_REFUSED && written == 3);
    CHECK(span[0] == 1.0f && span[1] == 2.0f && span[2] == 3.0f && span[3] == -1.0f && filter.delay[0] == 6.0f);
    CHECK(GaugeLinearPhaseFir_process(&filter, 10.0f, &value) == GAUGE_NOT_REFUSED && value == 4.0f);
    filter.antisymmetric = 7;
    CHECK(GaugeLinearPhaseFir_process(&filter, 15.0f, &value) == GAUGE_NOT_REFUSED && value == 5.0f);
    CHECK(GaugeLinearPhaseFir_reset(&filter) == GAUGE_NOT_REFUSED && filter.delay[0] == 0.0f);
    CHECK(filter.m == 1 && filter.antisymmetric == 7);
    CHECK(GaugeLinearPhaseFir_block(&filter, NULL, 0, NULL, 0, &written) == GAUGE_NOT_REFUSED && written == 0);

    CHECK(GaugeLinearPhaseFir_new(&filter, 1, 1, taps, 24) == GAUGE_REFUSED_PHASE_TAPS);
    CHECK(filter.m == 0 && filter.odd == 0 && filter.antisymmetric == 0);
    CHECK(GaugeLinearPhaseFir_block(&filter, src, 3, span, 4, &written) == GAUGE_REFUSED_STATE && written == 0);
    CHECK(GaugeLinearPhaseFir_inplace(&filter, span, 4, &written) == GAUGE_REFUSED_STATE && span[0] == 1.0f);
    CHECK(GaugeLinearPhaseFir_process(&filter, 1.0f, &value) == GAUGE_REFUSED_STATE && value == 0.0f);
    CHECK(GaugeLinearPhaseFir_response_length(&filter, &length) == GAUGE_REFUSED_STATE && length == 0);
    CHECK(GaugeLinearPhaseFir_reset(&filter) == GAUGE_REFUSED_STATE);
}

static void resamplers(void) {
    GaugePolyphaseResamp state;
    const float prototype[2] = {1.0f, 0.0f};
    const float src[2] = {0.5f, 0.0f};
    float dst[3];
    uint64_t taken, written;
    CHECK(GaugePolyphaseResamp_from_taps(&state, 2, 1, prototype, 2, 0.5f) == GAUGE_NOT_REFUSED);
    CHECK(GaugePolyphaseResamp_process_block(&state, src, 2, dst, 1, &taken, &written) == GAUGE_NOT_REFUSED);
    CHECK(taken == 1 && written == 1 && dst[0] == -0.5f);
    CHECK(GaugePolyphaseResamp_reset(&state) == GAUGE_NOT_REFUSED && state.mu == 1.0f);
    CHECK(GaugePolyphaseResamp_push(&state, 0.5f, dst, 3, &written) == GAUGE_NOT_REFUSED);
    CHECK(written == 2 && dst[0] == -0.5f && dst[1] == 0.0f);
    CHECK(GaugePolyphaseResamp_from_taps(&state, 2, 1, prototype, 1, 0.5f) == GAUGE_REFUSED_PROTOTYPE);
    CHECK(gauge_raw_resample_linear_f32(src, 2, dst, 3, 0.5f, &written) == GAUGE_NOT_REFUSED);
    CHECK(written == 3 && dst[0] == 0.5f && dst[1] == 0.25f && dst[2] == 0.0f);
}

// Each setting reaches the member of its name.
static void line_members(void) {
    GaugeLine line;
    const GaugeSettings settings = {3, 5, 7, 2, 4, 1, 1.5f, 1, 0};
    const int16_t taps[2] = {11, 12};
    const float prototype[4] = {0.1f, 0.2f, 0.3f, 0.4f};
    const int32_t sample[1] = {9};
    float value;
    uint64_t taken, written;
    CHECK(GaugeLine_open(&line, &settings, taps, 2, prototype, 4) == GAUGE_NOT_REFUSED);
    CHECK(line.stages == 3 && line.r == 5 && line.sample_counter == 0);
    CHECK(line.factor == 7 && line.tap_count == 2 && line.wait == 2 && line.taps[1] == 12 && line.fir_delay[1] == 0);
    CHECK(line.depth == 2 && line.phases == 4 && line.phase_taps == 1 && line.straight == 1);
    CHECK(line.mu == 1.0f && line.step == 1.5f && line.prototype[3] == 0.4f && line.delay[0] == 0.0f);
    CHECK(GaugeLine_feed(&line, sample, 1, NULL, 0, &taken, &written) == GAUGE_NOT_REFUSED && taken == 0);
    CHECK(GaugeLine_step(&line, sample, 1, 0, 1, &taken, &written, &value) == GAUGE_NOT_REFUSED);
    CHECK(taken == 1 && line.integrators[0] == 9 && line.combs[0] == 0 && line.sample_counter == 1);
}

// What thins: any number but 0 is neighbours, and a factor that is no power of two is then refused right after 2.
static void line_thinning(void) {
    GaugeLine line;
    GaugeSettings settings = {3, 8, 0, 0, 0, 0, 0.0f, 0, 7};
    const int32_t samples[2] = {9, 5};
    float level;
    uint64_t taken, written;
    CHECK(GaugeLine_open(&line, &settings, NULL, 0, NULL, 0) == GAUGE_NOT_REFUSED && line.thinning == 1);
    CHECK(GaugeLine_feed(&line, samples, 2, &level, 1, &taken, &written) == GAUGE_NOT_REFUSED && taken == 2);
    CHECK(line.neighbours[0] == 5 && line.neighbours[3] == 32 && line.integrators[0] == 0 && line.sample_counter == 2);
    settings.r = 48;
    CHECK(GaugeLine_open(&line, &settings, NULL, 0, NULL, 0) == GAUGE_REFUSED_POWER_OF_TWO && line.thinning == 0);
    settings.r = 5000;
    CHECK(GaugeLine_open(&line, &settings, NULL, 0, NULL, 0) == GAUGE_REFUSED_FACTOR);
}

// What sections 2 and 3 cut of 40000 and of the FIR's sum, twice 32767; an end of the range is not cut.
static void line_cuts(void) {
    GaugeLine line;
    const GaugeSettings settings = {1, 1, 1, 0, 0, 0, 0.0f, 0, 0};
    const int16_t taps[2] = {32767, 32767};
    const int32_t samples[3] = {40000, 32767, 0};
    float out[3];
    uint64_t taken, written;
    CHECK(GaugeLine_open(&line, &settings, taps, 2, NULL, 0) == GAUGE_NOT_REFUSED && GaugeLine_cuts(&line) == 0);
    CHECK(GaugeLine_feed(&line, samples, 3, out, 3, &taken, &written) == GAUGE_NOT_REFUSED);
    CHECK(taken == 3 && written == 2 && GaugeLine_cuts(&line) == 2);
    line.cuts = UINT32_MAX;
    CHECK(GaugeLine_feed(&line, samples, 3, out, 3, &taken, &written) == GAUGE_NOT_REFUSED);
    CHECK(GaugeLine_cuts(&line) == UINT32_MAX);
    CHECK(GaugeLine_reset(&line) == GAUGE_NOT_REFUSED && GaugeLine_cuts(&line) == 0);
}

// 01's reading of a line, then the same by steps.
static void line_readings(void) {
    GaugeLine line;
    GaugeSettings settings = {1, 1, 0, 0, 2, 1, 0.5f, 0, 0};
    const float prototype[2] = {1.0f, 0.0f};
    const int32_t samples[2] = {16384, 0};
    float out[3], value;
    uint64_t taken, written;
    CHECK(GaugeLine_open(&line, &settings, NULL, 0, prototype, 2) == GAUGE_NOT_REFUSED);
    CHECK(GaugeLine_feed(&line, samples, 2, out, 1, &taken, &written) == GAUGE_NOT_REFUSED);
    CHECK(taken == 1 && written == 1 && out[0] == -0.5f);
    CHECK(GaugeLine_feed(&line, samples + 1, 1, out, 3, &taken, &written) == GAUGE_NOT_REFUSED);
    CHECK(taken == 1 && written == 3 && out[0] == 0.0f && out[1] == 0.0f && out[2] == 0.0f);
    CHECK(GaugeLine_feed(&line, NULL, 0, NULL, 0, &taken, &written) == GAUGE_NOT_REFUSED && taken + written == 0);
    CHECK(GaugeLine_reset(&line) == GAUGE_NOT_REFUSED && line.mu == 1.0f);
    CHECK(GaugeLine_step(&line, samples, 2, 0, 1, &taken, &written, &value) == GAUGE_NOT_REFUSED);
    CHECK(taken == 1 && written == 0);
    CHECK(GaugeLine_step(&line, samples, 2, 1, 1, &taken, &written, &value) == GAUGE_NOT_REFUSED);
    CHECK(taken == 0 && written == 1 && value == -0.5f);
    settings.step = 65.0f;
    CHECK(GaugeLine_open(&line, &settings, NULL, 0, prototype, 2) == GAUGE_REFUSED_STEP && line.r == 0);
    CHECK(GaugeLine_feed(&line, samples, 2, out, 3, &taken, &written) == GAUGE_REFUSED_STATE);
    CHECK(taken == 0 && written == 0 && line.r == 0);
}

// A line with every part on, parked after some samples; taken up it is the same, and so is what it is parked to.
static void parked_line(void) {
    static GaugeLine line, taken_up;
    static uint8_t sheet[GAUGE_MOST_PARKED], again[GAUGE_MOST_PARKED];
    const GaugeSettings settings = {2, 2, 1, 1, 2, 2, 0.75f, 1, 0};
    const int16_t taps[2] = {16384, 16384};
    const float prototype[4] = {0.0f, 0.5f, 1.0f, 0.5f};
    const int32_t samples[11] = {100, -200, 300, 40000, 500, 600, -700, 800, 900, 1000, 1100};
    float out[2], same[2];
    uint64_t taken, written, bytes, length;
    CHECK(GaugeLine_open(&line, &settings, taps, 2, prototype, 4) == GAUGE_NOT_REFUSED);
    CHECK(GaugeLine_feed(&line, samples, 11, out, 1, &taken, &written) == GAUGE_NOT_REFUSED && written == 1);
    CHECK(GaugeLine_parked_len(&line, &length) == GAUGE_NOT_REFUSED && length <= GAUGE_MOST_PARKED);
    memset(sheet, 0xa5, sizeof sheet);
    CHECK(GaugeLine_park(&line, sheet, length - 1, &bytes) == GAUGE_REFUSED_ENTRIES && bytes == 0 && sheet[0] == 0xa5);
    CHECK(GaugeLine_park(&line, sheet, sizeof sheet, &bytes) == GAUGE_NOT_REFUSED && bytes == length);
    CHECK(sheet[0] == 7 && sheet[58] == 2 && sheet[72] == 1 && sheet[bytes] == 0xa5);
    CHECK(GaugeLine_take_up(&taken_up, sheet, bytes) == GAUGE_NOT_REFUSED);
    CHECK(GaugeLine_park(&taken_up, again, sizeof again, &bytes) == GAUGE_NOT_REFUSED && bytes == length);
    CHECK(memcmp(again, sheet, length) == 0 && GaugeLine_cuts(&taken_up) == GaugeLine_cuts(&line));
    CHECK(GaugeLine_feed(&line, samples, 11, out, 2, &taken, &written) == GAUGE_NOT_REFUSED && written == 2);
    CHECK(GaugeLine_feed(&taken_up, samples, 11, same, 2, &taken, &written) == GAUGE_NOT_REFUSED && written == 2);
    CHECK(memcmp(out, same, sizeof out) == 0);
    CHECK(GaugeLine_take_up(&taken_up, sheet, length - 1) == GAUGE_REFUSED_ENTRIES && taken_up.stages == 0);
    sheet[58] = 3;
    CHECK(GaugeLine_take_up(&taken_up, sheet, length) == GAUGE_REFUSED_PARKED);
    sheet[58] = 2;
    sheet[82] = 2;
    CHECK(GaugeLine_take_up(&taken_up, sheet, length) == GAUGE_REFUSED_STATE && taken_up.stages == 0);
    CHECK(GaugeLine_parked_len(&taken_up, &length) == GAUGE_REFUSED_STATE && length == 0);
}

// A plan counts what the feeds of a line do; past its limits it is refused behind the opening, and leaves the lists.
static void feeding_plan(void) {
    static GaugeLine line;
    static uint64_t lengths[GAUGE_MOST_CALLS + 1], more[GAUGE_MOST_CALLS + 1], least[GAUGE_MOST_CALLS + 1];
    GaugeSettings settings = {2, 2, 1, 1, 2, 2, 0.75f, 1, 0};
    const int16_t taps[2] = {16384, 16384};
    const float prototype[4] = {0.0f, 0.5f, 1.0f, 0.5f};
    const uint64_t pieces[3] = {11, 11, 5}, spans[3] = {1, 2, 0}, longest = GAUGE_MOST_BLOCK + 1;
    const int32_t samples[11] = {100, -200, 300, 40000, 500, 600, -700, 800, 900, 1000, 1100};
    float out[2];
    uint64_t taken[3], written[3], one_taken, one_written;
    CHECK(gauge_plan(&settings, taps, 2, prototype, 4, pieces, spans, taken, written, 3) == GAUGE_NOT_REFUSED);
    CHECK(GaugeLine_open(&line, &settings, taps, 2, prototype, 4) == GAUGE_NOT_REFUSED);
    for (int i = 0; i < 3; i++) {
        uint64_t refused = GaugeLine_feed(&line, samples, pieces[i], out, spans[i], &one_taken, &one_written);
        CHECK(refused == GAUGE_NOT_REFUSED && one_taken == taken[i] && one_written == written[i]);
    }
    CHECK(gauge_plan(&settings, taps, 2, prototype, 4, NULL, NULL, NULL, NULL, 0) == GAUGE_NOT_REFUSED);
    for (uint64_t calls = GAUGE_MOST_CALLS; calls < GAUGE_MOST_CALLS + 2; calls++) {
        uint64_t wanted = calls > GAUGE_MOST_CALLS ? GAUGE_REFUSED_PLAN : GAUGE_NOT_REFUSED;
        CHECK(gauge_plan(&settings, taps, 2, prototype, 4, lengths, lengths, more, least, calls) == wanted);
    }
    taken[0] = written[0] = 9;
    CHECK(gauge_plan(&settings, taps, 2, prototype, 4, &longest, spans, taken, written, 1) == GAUGE_REFUSED_PLAN);
    CHECK(gauge_plan(&settings, taps, 2, prototype, 4, spans, &longest, taken, written, 1) == GAUGE_REFUSED_PLAN);
    settings.depth = 6;
    CHECK(gauge_plan(&settings, taps, 2, prototype, 4, &longest, spans, taken, written, 1) == GAUGE_REFUSED_DEPTH);
    CHECK(taken[0] == 9 && written[0] == 9);
}

static void tap_sheets(void) {
    const uint8_t joined[3] = {7, 8, 9};
    const uint64_t lengths[3] = {2, 0, 1};
    uint8_t span[32];
    uint64_t written, offset, size;
    GaugeSheet sheet;
    memset(span, 0xa5, sizeof span);
    CHECK(gauge_raw_sheet_write(joined, 3, lengths, 3, span, 28, &written) == GAUGE_REFUSED_ENTRIES);
    CHECK(written == 0 && span[0] == 0xa5);
    CHECK(gauge_raw_sheet_write(joined, 3, lengths, 3, span, 32, &written) == GAUGE_NOT_REFUSED);
    CHECK(written == 29 && span[29] == 0xa5);
    CHECK(GaugeSheet_read(&sheet, span, written) == GAUGE_NOT_REFUSED && sheet.count == 3);
    CHECK(GaugeSheet_entry(&sheet, 2, &offset, &size) == GAUGE_NOT_REFUSED);
    CHECK(offset == 28 && size == 1 && sheet.bytes[offset] == 9);
    CHECK(GaugeSheet_entry(&sheet, 3, &offset, &size) == GAUGE_REFUSED_ENTRY_NUMBER && offset == 0 && size == 0);
    sheet.count = 2;
    CHECK(GaugeSheet_entry(&sheet, 0, &offset, &size) == GAUGE_REFUSED_DIRECTORY && size == 0);
    span[2] = 25;
    CHECK(GaugeSheet_read(&sheet, span, written) == GAUGE_REFUSED_ENTRIES && sheet.count == 0 && sheet.length == 0);
    CHECK(GaugeSheet_entry(&sheet, 0, &offset, &size) == GAUGE_REFUSED_DIRECTORY && offset == 0);
}

static void pieces_and_names(void) {
    const int32_t samples[5] = {1, 2, 3, 4, 5};
    GaugePiece last = {samples, 3};
    GaugePiece waiting = {samples + 3, 2};
    GaugePiece rest = gauge_next_piece(last, 2, waiting);
    CHECK(rest.samples == samples + 2 && rest.len == 1);
    CHECK(gauge_next_piece(last, 3, waiting).samples == waiting.samples);
    CHECK(gauge_next_piece(last, 9, waiting).len == 2);
    CHECK(strcmp(gauge_refusal_name(GAUGE_REFUSED_GAIN_BITS), "GainBits") == 0);
    CHECK(strcmp(gauge_refusal_name(GAUGE_NOT_REFUSED), "not refused") == 0);
    CHECK(strcmp(gauge_refusal_name(UINT64_MAX), "unknown") == 0);
}

int main(void) {
    cic_decimator();
    cic_interpolator();
    q15_blocks();
    fir_decimator();
    half_band_stages();
    half_band_cascades();
    half_band_values();
    linear_phase_kinds();
    linear_phase_calls();
    resamplers();
    line_members();
    line_thinning();
    line_cuts();
    line_readings();
    parked_line();
    feeding_plan();
    tap_sheets();
    pieces_and_names();
    return failures != 0;
}
