// Linear-phase filters on floats, at one rate: of even or odd length, symmetric or antisymmetric, with M taps that both
// halves share. Every operation rounds once, in a fixed order. What gauge_line.h says of the caller holds here too.
//
// kind                   length    delay, samples    at 0 Hz             at half the rate
// odd_symmetric          2M + 1    M                 1 + 2 x sum of c    as the taps make it
// even_symmetric         2M        M - 1/2           2 x sum of c        0
// odd_antisymmetric      2M + 1    M                 0                   0
// even_antisymmetric     2M        M - 1/2           0                   as the taps make it
//
// With new the later and old the earlier sample of a pair, an output is, from 0, the sum of (new + old) x c[t], or of
// (new - old) x c[t] in the antisymmetric kinds, t rising from the outermost pair; odd_symmetric adds the centre sample
// last. Samples before the first are 0. How a stream is cut into blocks and samples shows in no output.
//
// A state whose settings its opening refuses is refused by 15 and stays as it was. A reset makes a state what its
// opening made it. Blocks may have any length, none too.
#ifndef GAUGE_LINEAR_PHASE_H
#define GAUGE_LINEAR_PHASE_H

#include "gauge_fp.h"
#include "gauge_raw.h"
#include "gauge_refusal.h"
#include <stdint.h>

#ifdef __cplusplus
extern "C" {
#endif

// The kind is two numbers: 0 for no, any other for yes.
// printed: state linear_phase_fir
typedef struct {
    uint64_t m;
    uint64_t odd;
    uint64_t antisymmetric;
    float taps[GAUGE_MOST_LINEAR_PHASE_TAPS];
    float delay[GAUGE_LINEAR_PHASE_DELAY];
} GaugeLinearPhaseFir;

#define GAUGE_LINEAR_PHASE_FIR_FIELDS(s) &(s)->m, &(s)->odd, &(s)->antisymmetric, (s)->taps, (s)->delay
// printed until here

// Opens a filter of a kind with 1 to GAUGE_MOST_LINEAR_PHASE_TAPS taps, one half of it, the outermost first; they are
// copied.
// Refusals: 19; the state is then all zeros.
static inline uint64_t GaugeLinearPhaseFir_new(
    GaugeLinearPhaseFir *state, uint64_t odd, uint64_t antisymmetric, const float *taps, uint64_t taps_len
) {
    return gauge_raw_linear_phase_fir_new(odd, antisymmetric, taps, taps_len, GAUGE_LINEAR_PHASE_FIR_FIELDS(state));
}

// Type I: odd length, symmetric, a centre tap of 1. Refusals: 19.
static inline uint64_t
GaugeLinearPhaseFir_odd_symmetric(GaugeLinearPhaseFir *state, const float *taps, uint64_t taps_len) {
    return GaugeLinearPhaseFir_new(state, 1, 0, taps, taps_len);
}

// Type II: even length, symmetric. Refusals: 19.
static inline uint64_t
GaugeLinearPhaseFir_even_symmetric(GaugeLinearPhaseFir *state, const float *taps, uint64_t taps_len) {
    return GaugeLinearPhaseFir_new(state, 0, 0, taps, taps_len);
}

// Type III: odd length, antisymmetric, a centre tap of 0. Refusals: 19.
static inline uint64_t
GaugeLinearPhaseFir_odd_antisymmetric(GaugeLinearPhaseFir *state, const float *taps, uint64_t taps_len) {
    return GaugeLinearPhaseFir_new(state, 1, 1, taps, taps_len);
}

// Type IV: even length, antisymmetric. Refusals: 19.
static inline uint64_t
GaugeLinearPhaseFir_even_antisymmetric(GaugeLinearPhaseFir *state, const float *taps, uint64_t taps_len) {
    return GaugeLinearPhaseFir_new(state, 0, 1, taps, taps_len);
}

// Refusals: 15.
static inline uint64_t GaugeLinearPhaseFir_reset(GaugeLinearPhaseFir *state) {
    return gauge_raw_linear_phase_fir_reset(GAUGE_LINEAR_PHASE_FIR_FIELDS(state));
}

// The samples that the filter keeps, one less than its length: 2M, or 2M - 1 where the length is even. The delay is
// half of it.
// Refusals: 15.
static inline uint64_t GaugeLinearPhaseFir_response_length(const GaugeLinearPhaseFir *state, uint64_t *length) {
    return gauge_raw_linear_phase_fir_response_length(
        state->m, state->odd, state->antisymmetric, state->taps, state->delay, length
    );
}

// Takes one sample and answers its output.
// Refusals: 15.
static inline uint64_t GaugeLinearPhaseFir_process(GaugeLinearPhaseFir *state, float x, float *value) {
    return gauge_raw_linear_phase_fir_process(GAUGE_LINEAR_PHASE_FIR_FIELDS(state), x, value);
}

// Takes the samples of `src` and writes an output of each to its place of the span.
// Refusals: 15, then 20 where src and span are not of one length; the span is then as it was, and `written` is 0.
static inline uint64_t GaugeLinearPhaseFir_block(
    GaugeLinearPhaseFir *state, const float *src, uint64_t src_len, float *span, uint64_t span_len, uint64_t *written
) {
    return gauge_raw_linear_phase_fir_block(
        GAUGE_LINEAR_PHASE_FIR_FIELDS(state), src, src_len, span, span_len, written
    );
}

// Takes the samples of the span and writes an output of each in its place.
// Refusals: 15.
static inline uint64_t
GaugeLinearPhaseFir_inplace(GaugeLinearPhaseFir *state, float *span, uint64_t span_len, uint64_t *written) {
    return gauge_raw_linear_phase_fir_inplace(GAUGE_LINEAR_PHASE_FIR_FIELDS(state), span, span_len, written);
}

#undef GAUGE_LINEAR_PHASE_FIR_FIELDS

#ifdef __cplusplus
}
#endif

#endif
