// 16-bit converters: Q15 values, signed 16-bit numbers of 32768ths. What gauge_line.h says of the caller holds here
// too.
//
// Blocks write their outputs to the front of `dst` and answer how many in `written`, the FIRs also how many of those
// were cut to 16 bits in `cuts`; the places behind them stay as they were. A block has 1 to GAUGE_MOST_BLOCK samples
// and taps, and a span of at most GAUGE_MOST_BLOCK places.
#ifndef GAUGE_Q15_H
#define GAUGE_Q15_H

#include "gauge_raw.h"
#include "gauge_refusal.h"
#include <stdint.h>

#ifdef __cplusplus
extern "C" {
#endif

// The sum held at -32768 and 32767. `cut` is 1 where that changed it, else 0: a sum of 32767 is not cut.
// printed: function gauge_raw_cut_q15
void gauge_raw_cut_q15(int64_t sum, int16_t *value, uint64_t *cut);
// printed until here

// The bits divided by 32768, exactly.
// printed: function gauge_raw_q15_to_f32
void gauge_raw_q15_to_f32(int16_t bits, float *value);
// printed until here

// A decimating FIR over one block: output i is the cut of the sum over t of src[i * factor + t] * coeffs[t] / 32768,
// each product rounded down by itself. As many outputs as whole windows in src and places in dst.
// Refusals: 5, 6, 7.
// printed: function gauge_raw_polyphase_decimate_q15
uint64_t gauge_raw_polyphase_decimate_q15(
    const int16_t *src, uint64_t src_len, const int16_t *coeffs, uint64_t coeffs_len, uint64_t decimation_factor,
    int16_t *dst, uint64_t dst_len, uint64_t *written, uint64_t *cuts
);
// printed until here

// An interpolating FIR over one block, with L the factor and K = coeffs_len / L: output i * L + p is the cut of L times
// the sum over t < K of src[i + t] * coeffs[t * L + p] / 32768, each product rounded down by itself. As many outputs as
// (src_len - K + 1) * L and places in dst.
// Refusals: 5, 6, 7, 8.
// printed: function gauge_raw_polyphase_interpolate_q15
uint64_t gauge_raw_polyphase_interpolate_q15(
    const int16_t *src, uint64_t src_len, const int16_t *coeffs, uint64_t coeffs_len, uint64_t interpolation_factor,
    int16_t *dst, uint64_t dst_len, uint64_t *written, uint64_t *cuts
);
// printed until here

// Fills dst: output i is between the two samples at i * ratio_q16 / 65536, rounded down; past the end the last sample.
// Refusals: 7, 9.
// printed: function gauge_raw_resample_linear_q15
uint64_t gauge_raw_resample_linear_q15(
    const int16_t *src, uint64_t src_len, int16_t *dst, uint64_t dst_len, int32_t ratio_q16, uint64_t *written
);
// printed until here

// The decimating FIR one sample at a time. This is its layout 2, with room for 128 taps where layout 1 had 64; the
// opening ends in that number, so an object file that was compiled with another layout's header does not link.
// printed: state fir_decimator
typedef struct {
    int16_t taps[GAUGE_MOST_TAPS];
    uint64_t tap_count;
    uint64_t factor;
    int16_t delay[GAUGE_MOST_TAPS];
    uint64_t wait;
} GaugeFirDecimator;

#define GAUGE_FIR_DECIMATOR_FIELDS(s) (s)->taps, &(s)->tap_count, &(s)->factor, (s)->delay, &(s)->wait
// printed until here

// Opens a FIR of 1 to GAUGE_MOST_TAPS taps, which are copied, and a factor of 1 to GAUGE_MOST_FACTOR. No taps mean off
// in the line alone; here they are refused.
// Refusals: 5, 6; the state is then all zeros, which every call refuses by 15.
static inline uint64_t
GaugeFirDecimator_new(GaugeFirDecimator *state, const int16_t *taps, uint64_t taps_len, uint64_t factor) {
    return gauge_raw_fir_decimator_new_2(taps, taps_len, factor, GAUGE_FIR_DECIMATOR_FIELDS(state));
}

// Makes the state what its opening made it.
// Refusals: 15.
static inline uint64_t GaugeFirDecimator_reset(GaugeFirDecimator *state) {
    return gauge_raw_fir_decimator_reset(GAUGE_FIR_DECIMATOR_FIELDS(state));
}

// Takes one sample. The sample that fills the first window makes an output, and every factor-th after it: `made` is 1
// and `value` is what gauge_raw_polyphase_decimate_q15 gives for the whole list. `cut` is 1 where it was cut to 16
// bits, else 0. Without an output all three are 0.
// Refusals: 15, where the settings are refused or `wait` is 0 or above both tap_count and factor.
static inline uint64_t GaugeFirDecimator_process_sample(
    GaugeFirDecimator *state, int16_t sample, uint64_t *made, int16_t *value, uint64_t *cut
) {
    return gauge_raw_fir_decimator_process_sample(GAUGE_FIR_DECIMATOR_FIELDS(state), sample, made, value, cut);
}

#undef GAUGE_FIR_DECIMATOR_FIELDS

#ifdef __cplusplus
}
#endif

#endif
