// Half-band filters on floats: stages that halve or double the rate, and cascades of them. Every operation rounds once,
// in a fixed order. What gauge_line.h says of the caller holds here too, and what it says of depth and passband.
//
// Blocks write their outputs to the front of `dst` and answer how many in `written`; the places behind them stay as
// they were. A block has 1 to GAUGE_MOST_BLOCK samples and a span of at most GAUGE_MOST_BLOCK places.
//
// A state whose settings its opening refuses is refused by 15 and stays as it was. A reset makes a state what its
// opening made it.
#ifndef GAUGE_HALF_BAND_H
#define GAUGE_HALF_BAND_H

#include "gauge_fp.h"
#include "gauge_raw.h"
#include "gauge_refusal.h"
#include <stdint.h>

#ifdef __cplusplus
extern "C" {
#endif

// The taps of the cascades' stages: 23 from 0 on, 10 from 23, 5 from 33, 4 from 38, 3 from 42.
// printed: function gauge_raw_hbf_tap_table
void gauge_raw_hbf_tap_table(float taps[GAUGE_HBF_TABLE]);
// printed until here

// The response length of a decimating cascade as the Rust original counts it, from the stage of 23 taps on:
// 0, 23, 28, 29, 29, 29 for depth 0 to 5.
// Refusals: 11.
// printed: function gauge_raw_hbf_dec_response_length
uint64_t gauge_raw_hbf_dec_response_length(uint64_t depth, uint64_t *length);
// printed until here

// The response length of an interpolating cascade as the Rust original counts it: 0, 46, 112, 234, 476, 958
// for depth 0 to 5.
// Refusals: 11.
// printed: function gauge_raw_hbf_int_response_length
uint64_t gauge_raw_hbf_int_response_length(uint64_t depth, uint64_t *length);
// printed until here

// The reach of a decimating cascade in input samples: 1, 11, 39, 111, 415, 1855 for depth 0 to 5. From a fresh cascade
// output j follows from that many samples ending at sample j * 2^depth; the samples behind it that complete the output
// don't matter.
// Refusals: 11.
// printed: function gauge_raw_hbf_dec_reach
uint64_t gauge_raw_hbf_dec_reach(uint64_t depth, uint64_t *reach);
// printed until here

// The same of a 98 dB cascade: 1, 7, 27, 67, 243, 1171 for depth 0 to 5.
// Refusals: 11.
// printed: function gauge_raw_hbf_dec_reach_98
uint64_t gauge_raw_hbf_dec_reach_98(uint64_t depth, uint64_t *reach);
// printed until here

// The taps of the 98 dB cascade's stages: 15 from 0 on, 6 from 15, 3 from 21, 3 from 24, 2 from 27.
// printed: function gauge_raw_hbf_tap_table_98
void gauge_raw_hbf_tap_table_98(float taps[GAUGE_HBF_TABLE_98]);
// printed until here

// One stage that halves the rate.
// printed: state hbf_dec
typedef struct {
    uint64_t m;
    float coeffs[GAUGE_MOST_HALF_BAND_TAPS];
    float delay[GAUGE_HBF_DEC_DELAY];
} GaugeHbfDec;

#define GAUGE_HBF_DEC_FIELDS(s) &(s)->m, (s)->coeffs, (s)->delay
// printed until here

// Opens a stage with 1 to GAUGE_MOST_HALF_BAND_TAPS taps, one side of the filter, outermost first; they are copied.
// Refusals: 10; the state is then all zeros.
static inline uint64_t GaugeHbfDec_new(GaugeHbfDec *state, const float *taps, uint64_t taps_len) {
    return gauge_raw_hbf_dec_new(taps, taps_len, GAUGE_HBF_DEC_FIELDS(state));
}

// Refusals: 15.
static inline uint64_t GaugeHbfDec_reset(GaugeHbfDec *state) {
    return gauge_raw_hbf_dec_reset(GAUGE_HBF_DEC_FIELDS(state));
}

// Takes the samples a and b and answers one output.
// Refusals: 15.
static inline uint64_t GaugeHbfDec_process_pair(GaugeHbfDec *state, float a, float b, float *value) {
    return gauge_raw_hbf_dec_process_pair(GAUGE_HBF_DEC_FIELDS(state), a, b, value);
}

// Takes pairs of src, one for each output, as many as dst has places; an odd last sample is left unread.
// Refusals: 15, 7.
static inline uint64_t GaugeHbfDec_process(
    GaugeHbfDec *state, const float *src, uint64_t src_len, float *dst, uint64_t dst_len, uint64_t *written
) {
    return gauge_raw_hbf_dec_process(GAUGE_HBF_DEC_FIELDS(state), src, src_len, dst, dst_len, written);
}

#undef GAUGE_HBF_DEC_FIELDS

// One stage that doubles the rate.
// printed: state hbf_int
typedef struct {
    uint64_t m;
    float coeffs[GAUGE_MOST_HALF_BAND_TAPS];
    float delay[GAUGE_HBF_INT_DELAY];
} GaugeHbfInt;

#define GAUGE_HBF_INT_FIELDS(s) &(s)->m, (s)->coeffs, (s)->delay
// printed until here

// Opens a stage with 1 to GAUGE_MOST_HALF_BAND_TAPS taps, one side of the filter, outermost first; they are copied.
// Refusals: 10; the state is then all zeros.
static inline uint64_t GaugeHbfInt_new(GaugeHbfInt *state, const float *taps, uint64_t taps_len) {
    return gauge_raw_hbf_int_new(taps, taps_len, GAUGE_HBF_INT_FIELDS(state));
}

// Refusals: 15.
static inline uint64_t GaugeHbfInt_reset(GaugeHbfInt *state) {
    return gauge_raw_hbf_int_reset(GAUGE_HBF_INT_FIELDS(state));
}

// Takes one sample and answers two outputs, `even` first.
// Refusals: 15.
static inline uint64_t GaugeHbfInt_process_sample(GaugeHbfInt *state, float x, float *even, float *odd) {
    return gauge_raw_hbf_int_process_sample(GAUGE_HBF_INT_FIELDS(state), x, even, odd);
}

// Takes samples of src, each for two outputs, as many as dst has two places for.
// Refusals: 15, 7.
static inline uint64_t GaugeHbfInt_process(
    GaugeHbfInt *state, const float *src, uint64_t src_len, float *dst, uint64_t dst_len, uint64_t *written
) {
    return gauge_raw_hbf_int_process(GAUGE_HBF_INT_FIELDS(state), src, src_len, dst, dst_len, written);
}

#undef GAUGE_HBF_INT_FIELDS

// A cascade that divides the rate by 2^depth: the first depth stages of M = 3, 4, 5, 10, 23 taps.
// printed: state hbf_dec_cascade
typedef struct {
    uint64_t depth;
    float delays[GAUGE_HBF_DEC_DELAYS];
} GaugeHbfDecCascade;

#define GAUGE_HBF_DEC_CASCADE_FIELDS(s) &(s)->depth, (s)->delays
// printed until here

// Opens a cascade of depth 1 to GAUGE_MOST_DEPTH.
// Refusals: 11; the state is then all zeros.
static inline uint64_t GaugeHbfDecCascade_new(GaugeHbfDecCascade *state, uint64_t depth) {
    return gauge_raw_hbf_dec_cascade_new(depth, GAUGE_HBF_DEC_CASCADE_FIELDS(state));
}

// Refusals: 15.
static inline uint64_t GaugeHbfDecCascade_reset(GaugeHbfDecCascade *state) {
    return gauge_raw_hbf_dec_cascade_reset(GAUGE_HBF_DEC_CASCADE_FIELDS(state));
}

// Takes 2^depth samples of src for each output, as many as dst has places; the rest of src is left unread.
// Refusals: 15, 7.
static inline uint64_t GaugeHbfDecCascade_process(
    GaugeHbfDecCascade *state, const float *src, uint64_t src_len, float *dst, uint64_t dst_len, uint64_t *written
) {
    return gauge_raw_hbf_dec_cascade_process(GAUGE_HBF_DEC_CASCADE_FIELDS(state), src, src_len, dst, dst_len, written);
}

#undef GAUGE_HBF_DEC_CASCADE_FIELDS

// A cascade with the 98 dB taps: the first depth stages of M = 2, 3, 3, 6, 15 taps, in fewer operations. A line has the
// cascade above. In parts of the output rate:
//
//   depth                              1       2       3       4       5
//   worst alias into 0 to 0.4, dB  -11.2   -13.9   -13.8   -21.3   -98.8
//   aliases below -98 dB up to     0.036   0.073   0.123   0.246   0.400
//   level at 0.4, dB                -2.8    -2.4    -2.2    -0.9     0.0
//
// printed: state hbf_dec_cascade_98
typedef struct {
    uint64_t depth;
    float delays[GAUGE_HBF_DEC_DELAYS];
} GaugeHbfDecCascade98;

#define GAUGE_HBF_DEC_CASCADE_98_FIELDS(s) &(s)->depth, (s)->delays
// printed until here

// Opens a cascade of depth 1 to GAUGE_MOST_DEPTH.
// Refusals: 11; the state is then all zeros.
static inline uint64_t GaugeHbfDecCascade98_new(GaugeHbfDecCascade98 *state, uint64_t depth) {
    return gauge_raw_hbf_dec_cascade_98_new(depth, GAUGE_HBF_DEC_CASCADE_98_FIELDS(state));
}

// Refusals: 15.
static inline uint64_t GaugeHbfDecCascade98_reset(GaugeHbfDecCascade98 *state) {
    return gauge_raw_hbf_dec_cascade_98_reset(GAUGE_HBF_DEC_CASCADE_98_FIELDS(state));
}

// Takes 2^depth samples of src for each output, as many as dst has places; the rest of src is left unread.
// Refusals: 15, 7.
static inline uint64_t GaugeHbfDecCascade98_process(
    GaugeHbfDecCascade98 *state, const float *src, uint64_t src_len, float *dst, uint64_t dst_len, uint64_t *written
) {
    return gauge_raw_hbf_dec_cascade_98_process(
        GAUGE_HBF_DEC_CASCADE_98_FIELDS(state), src, src_len, dst, dst_len, written
    );
}

#undef GAUGE_HBF_DEC_CASCADE_98_FIELDS

// A cascade that multiplies the rate by 2^depth: the first depth stages of M = 23, 10, 5, 4, 3 taps.
// printed: state hbf_int_cascade
typedef struct {
    uint64_t depth;
    float delays[GAUGE_HBF_INT_DELAYS];
} GaugeHbfIntCascade;

#define GAUGE_HBF_INT_CASCADE_FIELDS(s) &(s)->depth, (s)->delays
// printed until here

// Opens a cascade of depth 1 to GAUGE_MOST_DEPTH.
// Refusals: 11; the state is then all zeros.
static inline uint64_t GaugeHbfIntCascade_new(GaugeHbfIntCascade *state, uint64_t depth) {
    return gauge_raw_hbf_int_cascade_new(depth, GAUGE_HBF_INT_CASCADE_FIELDS(state));
}

// Refusals: 15.
static inline uint64_t GaugeHbfIntCascade_reset(GaugeHbfIntCascade *state) {
    return gauge_raw_hbf_int_cascade_reset(GAUGE_HBF_INT_CASCADE_FIELDS(state));
}

// Takes samples of src, each for 2^depth outputs, as many as dst has places for.
// Refusals: 15, 7.
static inline uint64_t GaugeHbfIntCascade_process(
    GaugeHbfIntCascade *state, const float *src, uint64_t src_len, float *dst, uint64_t dst_len, uint64_t *written
) {
    return gauge_raw_hbf_int_cascade_process(GAUGE_HBF_INT_CASCADE_FIELDS(state), src, src_len, dst, dst_len, written);
}

#undef GAUGE_HBF_INT_CASCADE_FIELDS

// The decimating cascade one sample at a time, as the line has it: a stage holds a sample until its partner comes.
// printed: state hbf_stream
typedef struct {
    uint64_t depth;
    float delays[GAUGE_HBF_DEC_DELAYS];
    float held[GAUGE_MOST_DEPTH];
    uint64_t counts[GAUGE_MOST_DEPTH];
} GaugeHbfStream;

#define GAUGE_HBF_STREAM_FIELDS(s) &(s)->depth, (s)->delays, (s)->held, (s)->counts
// printed until here

// Opens a cascade of depth 1 to GAUGE_MOST_DEPTH. Depth 0 is off in the line alone; here it is refused.
// Refusals: 11; the state is then all zeros, which every call refuses by 15.
static inline uint64_t GaugeHbfStream_new(GaugeHbfStream *state, uint64_t depth) {
    return gauge_raw_hbf_stream_new(depth, GAUGE_HBF_STREAM_FIELDS(state));
}

// Refusals: 15.
static inline uint64_t GaugeHbfStream_reset(GaugeHbfStream *state) {
    return gauge_raw_hbf_stream_reset(GAUGE_HBF_STREAM_FIELDS(state));
}

// Takes one sample. Every 2^depth-th makes an output: `made` is 1 and `value` is the output. Else both are 0.
// Refusals: 15, also where a stage that is run holds more than one sample.
static inline uint64_t GaugeHbfStream_process_sample(GaugeHbfStream *state, float x, uint64_t *made, float *value) {
    return gauge_raw_hbf_stream_process_sample(GAUGE_HBF_STREAM_FIELDS(state), x, made, value);
}

#undef GAUGE_HBF_STREAM_FIELDS

#ifdef __cplusplus
}
#endif

#endif
