// Half-band stages, cascades and the stream, each over three streams of floats.
#include "gauge_half_band.h"
#include "outputs.h"
#include "print.h"
#include "samples.h"

#define FEEDS 6
#define SHORT 60
// So long that a stage moves its delay line back to the front of its buffer.
#define LONG 400

// One more than a block may have, and two places that stay unwritten.
static float src[GAUGE_MOST_BLOCK + 1], dst[GAUGE_MOST_BLOCK + 3], taps[GAUGE_MOST_HALF_BAND_TAPS + 1];

// Samples or places of a feed: a long one first.
static uint64_t length_of(int feed) {
    return feed == 0 ? LONG : below(SHORT);
}

static void put_block(uint64_t refused, uint64_t len, uint64_t written) {
    put_counts("block", refused, len, written);
    put_values("dst", F32, dst, written + 2);
}

static void put_stage(uint64_t m, const float *coeffs, const float *delay, uint64_t delays) {
    put_number("m", m);
    put_values("coeffs", F32, coeffs, 23);
    put_values("delay", F32, delay, delays);
}

static void dec(Stream stream, uint64_t m) {
    GaugeHbfDec state;
    uint64_t written, refused = GaugeHbfDec_new(&state, taps, m);
    float pair[2], value;
    put_counts("HbfDec", refused, stream, m);
    for (int feed = 0; feed < FEEDS; feed++) {
        uint64_t len = length_of(feed);
        fill_f32(stream, src, len);
        refused = GaugeHbfDec_process(&state, src, len, dst, length_of(feed), &written);
        put_block(refused, len, written);
        fill_f32(stream, pair, 2);
        refused = GaugeHbfDec_process_pair(&state, pair[0], pair[1], &value);
        put_number("pair", refused);
        put_values("value", F32, &value, 1);
    }
    put_stage(state.m, state.coeffs, state.delay, 96);
    put_number("reset", GaugeHbfDec_reset(&state));
    put_stage(state.m, state.coeffs, state.delay, 96);
}

static void interpolating(Stream stream, uint64_t m) {
    GaugeHbfInt state;
    uint64_t written, refused = GaugeHbfInt_new(&state, taps, m);
    float values[2];
    put_counts("HbfInt", refused, stream, m);
    for (int feed = 0; feed < FEEDS; feed++) {
        uint64_t len = length_of(feed);
        fill_f32(stream, src, len);
        refused = GaugeHbfInt_process(&state, src, len, dst, length_of(feed), &written);
        put_block(refused, len, written);
        refused = GaugeHbfInt_process_sample(&state, sample_f32(stream), &values[0], &values[1]);
        put_number("sample", refused);
        put_values("values", F32, values, 2);
    }
    put_stage(state.m, state.coeffs, state.delay, 48);
    put_number("reset", GaugeHbfInt_reset(&state));
    put_stage(state.m, state.coeffs, state.delay, 48);
}

static void dec_cascade(Stream stream, uint64_t depth) {
    GaugeHbfDecCascade state;
    uint64_t written, refused = GaugeHbfDecCascade_new(&state, depth);
    put_counts("HbfDecCascade", refused, stream, depth);
    for (int feed = 0; feed < 2 * FEEDS; feed++) {
        uint64_t len = length_of(feed);
        fill_f32(stream, src, len);
        refused = GaugeHbfDecCascade_process(&state, src, len, dst, length_of(feed), &written);
        put_block(refused, len, written);
    }
    put_values("delays", F32, state.delays, 480);
    put_number("reset", GaugeHbfDecCascade_reset(&state));
    put_values("delays", F32, state.delays, 480);
}

static void dec_cascade_98(Stream stream, uint64_t depth) {
    GaugeHbfDecCascade98 state;
    uint64_t written, refused = GaugeHbfDecCascade98_new(&state, depth);
    put_counts("HbfDecCascade98", refused, stream, depth);
    for (int feed = 0; feed < 2 * FEEDS; feed++) {
        uint64_t len = length_of(feed);
        fill_f32(stream, src, len);
        refused = GaugeHbfDecCascade98_process(&state, src, len, dst, length_of(feed), &written);
        put_block(refused, len, written);
    }
    put_values("delays", F32, state.delays, 480);
    put_number("reset", GaugeHbfDecCascade98_reset(&state));
    put_values("delays", F32, state.delays, 480);
}

static void int_cascade(Stream stream, uint64_t depth) {
    GaugeHbfIntCascade state;
    uint64_t written, refused = GaugeHbfIntCascade_new(&state, depth);
    put_counts("HbfIntCascade", refused, stream, depth);
    for (int feed = 0; feed < FEEDS; feed++) {
        uint64_t len = length_of(feed);
        fill_f32(stream, src, len);
        refused = GaugeHbfIntCascade_process(&state, src, len, dst, 2 * length_of(feed), &written);
        put_block(refused, len, written);
    }
    put_values("delays", F32, state.delays, 240);
    put_number("reset", GaugeHbfIntCascade_reset(&state));
    put_values("delays", F32, state.delays, 240);
}

static void put_stream(const GaugeHbfStream *state) {
    put_number("depth", state->depth);
    put_values("delays", F32, state->delays, 480);
    put_values("held", F32, state->held, 5);
    put_values("counts", U64, state->counts, 5);
}

static void stream_samples(GaugeHbfStream *state, Stream stream, int count) {
    uint64_t made = 0, refused = 0;
    float value = 0;
    for (int i = 0; i < count; i++) {
        refused = GaugeHbfStream_process_sample(state, sample_f32(stream), &made, &value);
        if (made != 0) {
            put_values("value", F32, &value, 1);
        }
    }
    put_number("sample", refused);
}

static void stream_cascade(Stream stream, uint64_t depth) {
    GaugeHbfStream state;
    put_counts("HbfStream", GaugeHbfStream_new(&state, depth), stream, depth);
    stream_samples(&state, stream, 250);
    put_stream(&state);
    state.counts[0] = 0x100000001;
    stream_samples(&state, stream, 1);
    put_number("reset", GaugeHbfStream_reset(&state));
    put_stream(&state);
}

// Blocks of the most samples and places, and of one more.
static void limits(void) {
    GaugeHbfDec dec_state;
    GaugeHbfInt int_state;
    GaugeHbfDecCascade dec_cascade_state;
    GaugeHbfIntCascade int_cascade_state;
    uint64_t written, refused[4];
    fill_f32(ORDINARY, src, GAUGE_MOST_BLOCK + 1);
    for (uint64_t i = 0; i < 4; i++) {
        uint64_t len = GAUGE_MOST_BLOCK + i / 2, places = GAUGE_MOST_BLOCK + i % 2;
        GaugeHbfDec_new(&dec_state, taps, 3);
        GaugeHbfInt_new(&int_state, taps, 3);
        GaugeHbfDecCascade_new(&dec_cascade_state, 5);
        GaugeHbfIntCascade_new(&int_cascade_state, 5);
        refused[0] = GaugeHbfDec_process(&dec_state, src, len, dst, places, &written);
        refused[1] = GaugeHbfInt_process(&int_state, src, len, dst, places, &written);
        refused[2] = GaugeHbfDecCascade_process(&dec_cascade_state, src, len, dst, places, &written);
        refused[3] = GaugeHbfIntCascade_process(&int_cascade_state, src, len, dst, places, &written);
        put_values("limits", U64, refused, 4);
        put_values("dst", F32, dst + GAUGE_MOST_BLOCK - SHORT, SHORT);
    }
}

static void values(void) {
    float table[45];
    uint64_t lengths[4];
    gauge_raw_hbf_tap_table(table);
    put_values("hbf_tap_table", F32, table, 45);
    gauge_raw_hbf_tap_table_98(table);
    put_values("hbf_tap_table_98", F32, table, GAUGE_HBF_TABLE_98);
    for (uint64_t depth = 0; depth <= 6; depth++) {
        lengths[0] = gauge_raw_hbf_dec_response_length(depth, &lengths[1]);
        lengths[2] = gauge_raw_hbf_int_response_length(depth, &lengths[3]);
        put_values("response_length", U64, lengths, 4);
        lengths[0] = gauge_raw_hbf_dec_reach(depth, &lengths[1]);
        lengths[2] = gauge_raw_hbf_dec_reach_98(depth, &lengths[3]);
        put_values("reach", U64, lengths, 4);
    }
}

void half_band_outputs(void) {
    static const uint64_t taps_wanted[5] = {0, 1, 3, 23, 24};
    static const uint64_t depths[8] = {0, 1, 2, 3, 4, 5, 6, 0x100000001};
    seed(3);
    values();
    fill_f32(ORDINARY, taps, GAUGE_MOST_HALF_BAND_TAPS + 1);
    fill_f32(ORDINARY, dst, GAUGE_MOST_BLOCK + 3);
    limits();
    for (int stream = ORDINARY; stream < STREAMS; stream++) {
        for (int i = 0; i < 5; i++) {
            dec((Stream)stream, taps_wanted[i]);
            interpolating((Stream)stream, taps_wanted[i]);
        }
        for (int i = 0; i < 8; i++) {
            dec_cascade((Stream)stream, depths[i]);
            dec_cascade_98((Stream)stream, depths[i]);
            int_cascade((Stream)stream, depths[i]);
            stream_cascade((Stream)stream, depths[i]);
        }
    }
}
