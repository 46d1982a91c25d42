// CIC converters: cascaded integrators and combs on 32-bit samples, every sum modulo 2^32. What gauge_line.h says of
// the caller holds here too.
//
// A state whose settings its opening refuses, or whose sample_counter is not below r, is refused by 15 and stays as it
// was.
#ifndef GAUGE_CIC_H
#define GAUGE_CIC_H

#include "gauge_raw.h"
#include "gauge_refusal.h"
#include <stdint.h>

#ifdef __cplusplus
extern "C" {
#endif

// printed: state cic_decimator
typedef struct {
    uint64_t stages;
    uint64_t r;
    int32_t integrators[GAUGE_MOST_STAGES];
    int32_t combs[GAUGE_MOST_STAGES];
    uint64_t sample_counter;
} GaugeCicDecimator;

#define GAUGE_CIC_DECIMATOR_FIELDS(s) &(s)->stages, &(s)->r, (s)->integrators, (s)->combs, &(s)->sample_counter
// printed until here

// Opens a decimator of 1 to GAUGE_MOST_STAGES stages by a factor r of 1 to GAUGE_MOST_FACTOR.
// Refusals: 1, 2; the state is then all zeros.
static inline uint64_t GaugeCicDecimator_new(GaugeCicDecimator *state, uint64_t stages, uint64_t r) {
    return gauge_raw_cic_decimator_new(stages, r, GAUGE_CIC_DECIMATOR_FIELDS(state));
}

// r^stages, held at 2^64 - 1.
// Refusals: 15.
static inline uint64_t GaugeCicDecimator_gain(const GaugeCicDecimator *state, uint64_t *gain) {
    return gauge_raw_cic_decimator_gain(
        state->stages, state->r, state->integrators, state->combs, state->sample_counter, gain
    );
}

// The least g with 2^g not below the gain.
// Refusals: 15.
static inline uint64_t GaugeCicDecimator_gain_bits(const GaugeCicDecimator *state, uint32_t *bits) {
    return gauge_raw_cic_decimator_gain_bits(
        state->stages, state->r, state->integrators, state->combs, state->sample_counter, bits
    );
}

// The samples of which every sum is exact, ends included: -2^(31 - g) to 2^(31 - g) - 1 with g gain bits. From an
// opening on, sums of such samples are the moving sums themselves, with no modulus, and scaled ones are rounded down
// from those. Refusals: 15, then 3 where the gain bits are over GAUGE_MOST_GAIN_BITS.
static inline uint64_t
GaugeCicDecimator_exact_range(const GaugeCicDecimator *state, int32_t *least, int32_t *greatest) {
    return gauge_raw_cic_decimator_exact_range(
        state->stages, state->r, state->integrators, state->combs, state->sample_counter, least, greatest
    );
}

// Takes one sample. Every r-th makes a sum: `made` is 1 and `sum` is the moving sum of the last r samples, taken
// `stages` times over, modulo 2^32. Else both are 0.
// Refusals: 15.
static inline uint64_t
GaugeCicDecimator_process_sample(GaugeCicDecimator *state, int32_t input, uint64_t *made, int32_t *sum) {
    return gauge_raw_cic_decimator_process_sample(GAUGE_CIC_DECIMATOR_FIELDS(state), input, made, sum);
}

// The same, the sum divided by 2 to the gain bits and rounded down.
// Refusals: 15, then 3 where the gain bits are over GAUGE_MOST_GAIN_BITS.
static inline uint64_t
GaugeCicDecimator_process_sample_scaled(GaugeCicDecimator *state, int32_t input, uint64_t *made, int32_t *sum) {
    return gauge_raw_cic_decimator_process_sample_scaled(GAUGE_CIC_DECIMATOR_FIELDS(state), input, made, sum);
}

// Takes samples from the front of `src` while `dst` has a place, and writes their sums to the front of dst. Continue
// behind the samples taken. Both may be of any length.
// Refusals: 15.
static inline uint64_t GaugeCicDecimator_process_block(
    GaugeCicDecimator *state, const int32_t *src, uint64_t src_len, int32_t *dst, uint64_t dst_len, uint64_t *taken,
    uint64_t *written
) {
    return gauge_raw_cic_decimator_process_block(
        GAUGE_CIC_DECIMATOR_FIELDS(state), src, src_len, dst, dst_len, taken, written
    );
}

#undef GAUGE_CIC_DECIMATOR_FIELDS

// Sums of neighbours: the decimator's sums with no integrators, for a factor that is a power of two. From an opening on
// it gives, sample after sample, what GaugeCicDecimator gives, every wrapped sum included. A state whose settings its
// opening refuses, or whose place is not below r, is refused by 15 and stays as it was.
// printed: state nonrecursive_decimator
typedef struct {
    uint64_t stages;
    uint64_t r;
    int32_t neighbours[GAUGE_MOST_NEIGHBOURS];
    uint64_t place;
} GaugeNonrecursiveDecimator;

#define GAUGE_NONRECURSIVE_DECIMATOR_FIELDS(s) &(s)->stages, &(s)->r, (s)->neighbours, &(s)->place
// printed until here

// Opens a decimator of 1 to GAUGE_MOST_STAGES stages by a factor r of 1 to GAUGE_MOST_FACTOR that is a power of two.
// Refusals: 1, 2, 23; the state is then all zeros.
static inline uint64_t GaugeNonrecursiveDecimator_new(GaugeNonrecursiveDecimator *state, uint64_t stages, uint64_t r) {
    return gauge_raw_nonrecursive_decimator_new(stages, r, GAUGE_NONRECURSIVE_DECIMATOR_FIELDS(state));
}

// r^stages, held at 2^64 - 1.
// Refusals: 15.
static inline uint64_t GaugeNonrecursiveDecimator_gain(const GaugeNonrecursiveDecimator *state, uint64_t *gain) {
    return gauge_raw_nonrecursive_decimator_gain(state->stages, state->r, state->neighbours, state->place, gain);
}

// The least g with 2^g not below the gain.
// Refusals: 15.
static inline uint64_t GaugeNonrecursiveDecimator_gain_bits(const GaugeNonrecursiveDecimator *state, uint32_t *bits) {
    return gauge_raw_nonrecursive_decimator_gain_bits(state->stages, state->r, state->neighbours, state->place, bits);
}

// Takes one sample. Every r-th makes a sum: `made` is 1 and `sum` is that of GaugeCicDecimator_process_sample. Else
// both are 0. Refusals: 15.
static inline uint64_t GaugeNonrecursiveDecimator_process_sample(
    GaugeNonrecursiveDecimator *state, int32_t input, uint64_t *made, int32_t *sum
) {
    return gauge_raw_nonrecursive_decimator_process_sample(
        GAUGE_NONRECURSIVE_DECIMATOR_FIELDS(state), input, made, sum
    );
}

// The same, the sum divided by 2 to the gain bits and rounded down.
// Refusals: 15, then 3 where the gain bits are over GAUGE_MOST_GAIN_BITS.
static inline uint64_t GaugeNonrecursiveDecimator_process_sample_scaled(
    GaugeNonrecursiveDecimator *state, int32_t input, uint64_t *made, int32_t *sum
) {
    return gauge_raw_nonrecursive_decimator_process_sample_scaled(
        GAUGE_NONRECURSIVE_DECIMATOR_FIELDS(state), input, made, sum
    );
}

// Takes samples from the front of `src` while `dst` has a place, and writes their sums to the front of dst. Continue
// behind the samples taken. Both may be of any length.
// Refusals: 15.
static inline uint64_t GaugeNonrecursiveDecimator_process_block(
    GaugeNonrecursiveDecimator *state, const int32_t *src, uint64_t src_len, int32_t *dst, uint64_t dst_len,
    uint64_t *taken, uint64_t *written
) {
    return gauge_raw_nonrecursive_decimator_process_block(
        GAUGE_NONRECURSIVE_DECIMATOR_FIELDS(state), src, src_len, dst, dst_len, taken, written
    );
}

#undef GAUGE_NONRECURSIVE_DECIMATOR_FIELDS

// printed: state cic_interpolator
typedef struct {
    uint64_t stages;
    uint64_t r;
    int32_t combs[GAUGE_MOST_STAGES];
    int32_t integrators[GAUGE_MOST_STAGES];
} GaugeCicInterpolator;

#define GAUGE_CIC_INTERPOLATOR_FIELDS(s) &(s)->stages, &(s)->r, (s)->combs, (s)->integrators
// printed until here

// Opens an interpolator of 1 to GAUGE_MOST_STAGES stages by a factor r of 1 to GAUGE_MOST_FACTOR.
// Refusals: 1, 2; the state is then all zeros.
static inline uint64_t GaugeCicInterpolator_new(GaugeCicInterpolator *state, uint64_t stages, uint64_t r) {
    return gauge_raw_cic_interpolator_new(stages, r, GAUGE_CIC_INTERPOLATOR_FIELDS(state));
}

// r^(stages - 1), held at 2^64 - 1.
// Refusals: 15.
static inline uint64_t GaugeCicInterpolator_gain(const GaugeCicInterpolator *state, uint64_t *gain) {
    return gauge_raw_cic_interpolator_gain(state->stages, state->r, state->combs, state->integrators, gain);
}

// The least g with 2^g not below the gain.
// Refusals: 15.
static inline uint64_t GaugeCicInterpolator_gain_bits(const GaugeCicInterpolator *state, uint32_t *bits) {
    return gauge_raw_cic_interpolator_gain_bits(state->stages, state->r, state->combs, state->integrators, bits);
}

// Takes one sample and writes r outputs to the front of `out_buf`: the moving sums of length r, taken `stages` times
// over, modulo 2^32, of the samples each followed by r - 1 zeros. `written` is r.
// Refusals: 15, then 4 where out_buf is shorter than r.
static inline uint64_t GaugeCicInterpolator_process_sample(
    GaugeCicInterpolator *state, int32_t input, int32_t *out_buf, uint64_t out_buf_len, uint64_t *written
) {
    return gauge_raw_cic_interpolator_process_sample(
        GAUGE_CIC_INTERPOLATOR_FIELDS(state), input, out_buf, out_buf_len, written
    );
}

// Takes samples from the front of `src`, as many as `dst` has r places for, and writes r outputs of each to the front
// of dst. Continue behind the samples taken. Both may be of any length.
// Refusals: 15, then 4 where dst is shorter than r.
static inline uint64_t GaugeCicInterpolator_process_block(
    GaugeCicInterpolator *state, const int32_t *src, uint64_t src_len, int32_t *dst, uint64_t dst_len, uint64_t *taken,
    uint64_t *written
) {
    return gauge_raw_cic_interpolator_process_block(
        GAUGE_CIC_INTERPOLATOR_FIELDS(state), src, src_len, dst, dst_len, taken, written
    );
}

#undef GAUGE_CIC_INTERPOLATOR_FIELDS

#ifdef __cplusplus
}
#endif

#endif
