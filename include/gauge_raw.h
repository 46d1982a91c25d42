// The archive's functions over a state, which crosses as its fields, each lent. A program calls the functions over a
// struct instead: gauge_line.h, gauge_cic.h, gauge_q15.h, gauge_half_band.h, gauge_linear_phase.h, gauge_resampler.h
// and gauge_sheet.h have them, with their contracts.
//
// Printed by host/bindings/run.sh from what crates/gauge_line/src exports.
#ifndef GAUGE_RAW_H
#define GAUGE_RAW_H

#include "gauge_limits.h"
#include <stdint.h>

#ifdef __cplusplus
extern "C" {
#endif

uint64_t gauge_raw_cic_decimator_new(
    uint64_t wanted_stages, uint64_t wanted_r, uint64_t *stages, uint64_t *r, int32_t integrators[GAUGE_MOST_STAGES],
    int32_t combs[GAUGE_MOST_STAGES], uint64_t *sample_counter
);
uint64_t gauge_raw_cic_decimator_gain(
    uint64_t stages, uint64_t r, const int32_t integrators[GAUGE_MOST_STAGES], const int32_t combs[GAUGE_MOST_STAGES],
    uint64_t sample_counter, uint64_t *gain
);
uint64_t gauge_raw_cic_decimator_gain_bits(
    uint64_t stages, uint64_t r, const int32_t integrators[GAUGE_MOST_STAGES], const int32_t combs[GAUGE_MOST_STAGES],
    uint64_t sample_counter, uint32_t *bits
);
uint64_t gauge_raw_cic_decimator_exact_range(
    uint64_t stages, uint64_t r, const int32_t integrators[GAUGE_MOST_STAGES], const int32_t combs[GAUGE_MOST_STAGES],
    uint64_t sample_counter, int32_t *least, int32_t *greatest
);
uint64_t gauge_raw_cic_decimator_process_sample(
    uint64_t *stages, uint64_t *r, int32_t integrators[GAUGE_MOST_STAGES], int32_t combs[GAUGE_MOST_STAGES],
    uint64_t *sample_counter, int32_t input, uint64_t *made, int32_t *sum
);
uint64_t gauge_raw_cic_decimator_process_sample_scaled(
    uint64_t *stages, uint64_t *r, int32_t integrators[GAUGE_MOST_STAGES], int32_t combs[GAUGE_MOST_STAGES],
    uint64_t *sample_counter, int32_t input, uint64_t *made, int32_t *sum
);
uint64_t gauge_raw_cic_decimator_process_block(
    uint64_t *stages, uint64_t *r, int32_t integrators[GAUGE_MOST_STAGES], int32_t combs[GAUGE_MOST_STAGES],
    uint64_t *sample_counter, const int32_t *src, uint64_t src_len, int32_t *dst, uint64_t dst_len, uint64_t *taken,
    uint64_t *written
);

uint64_t gauge_raw_cic_interpolator_new(
    uint64_t wanted_stages, uint64_t wanted_r, uint64_t *stages, uint64_t *r, int32_t combs[GAUGE_MOST_STAGES],
    int32_t integrators[GAUGE_MOST_STAGES]
);
uint64_t gauge_raw_cic_interpolator_gain(
    uint64_t stages, uint64_t r, const int32_t combs[GAUGE_MOST_STAGES], const int32_t integrators[GAUGE_MOST_STAGES],
    uint64_t *gain
);
uint64_t gauge_raw_cic_interpolator_gain_bits(
    uint64_t stages, uint64_t r, const int32_t combs[GAUGE_MOST_STAGES], const int32_t integrators[GAUGE_MOST_STAGES],
    uint32_t *bits
);
uint64_t gauge_raw_cic_interpolator_process_sample(
    uint64_t *stages, uint64_t *r, int32_t combs[GAUGE_MOST_STAGES], int32_t integrators[GAUGE_MOST_STAGES],
    int32_t input, int32_t *out_buf, uint64_t out_buf_len, uint64_t *written
);
uint64_t gauge_raw_cic_interpolator_process_block(
    uint64_t *stages, uint64_t *r, int32_t combs[GAUGE_MOST_STAGES], int32_t integrators[GAUGE_MOST_STAGES],
    const int32_t *src, uint64_t src_len, int32_t *dst, uint64_t dst_len, uint64_t *taken, uint64_t *written
);

uint64_t gauge_raw_plan_3(
    uint64_t stages, uint64_t r, uint64_t factor, uint64_t depth, uint64_t phases, uint64_t phase_taps,
    uint64_t straight, float step, uint64_t thinning, const int16_t *taps, uint64_t taps_len, const float *prototype,
    uint64_t prototype_len, const uint64_t *pieces, uint64_t pieces_len, const uint64_t *spans, uint64_t spans_len,
    uint64_t *taken, uint64_t taken_len, uint64_t *written, uint64_t written_len
);

uint64_t gauge_raw_fir_decimator_new_2(
    const int16_t *wanted_taps, uint64_t wanted_taps_len, uint64_t wanted_factor, int16_t taps[GAUGE_MOST_TAPS],
    uint64_t *tap_count, uint64_t *factor, int16_t delay[GAUGE_MOST_TAPS], uint64_t *wait
);
uint64_t gauge_raw_fir_decimator_reset(
    int16_t taps[GAUGE_MOST_TAPS], uint64_t *tap_count, uint64_t *factor, int16_t delay[GAUGE_MOST_TAPS], uint64_t *wait
);
uint64_t gauge_raw_fir_decimator_process_sample(
    int16_t taps[GAUGE_MOST_TAPS], uint64_t *tap_count, uint64_t *factor, int16_t delay[GAUGE_MOST_TAPS],
    uint64_t *wait, int16_t sample, uint64_t *made, int16_t *value, uint64_t *cut
);

uint64_t gauge_raw_line_open_3(
    uint64_t wanted_stages, uint64_t wanted_r, uint64_t wanted_factor, uint64_t wanted_depth, uint64_t wanted_phases,
    uint64_t wanted_phase_taps, uint64_t wanted_straight, float wanted_step, uint64_t wanted_thinning,
    const int16_t *wanted_taps, uint64_t wanted_taps_len, const float *wanted_prototype, uint64_t wanted_prototype_len,
    uint64_t *stages, uint64_t *r, int32_t integrators[GAUGE_MOST_STAGES], int32_t combs[GAUGE_MOST_STAGES],
    uint64_t *sample_counter, int16_t taps[GAUGE_MOST_TAPS], uint64_t *tap_count, uint64_t *factor,
    int16_t fir_delay[GAUGE_MOST_TAPS], uint64_t *wait, uint64_t *depth, float delays[GAUGE_HBF_DEC_DELAYS],
    float held[GAUGE_MOST_DEPTH], uint64_t counts[GAUGE_MOST_DEPTH], uint64_t *phases, uint64_t *phase_taps,
    uint64_t *straight, float *mu, float *step, float delay[GAUGE_MOST_PHASE_TAPS],
    float prototype[GAUGE_MOST_PROTOTYPE], uint32_t *cuts, uint64_t *thinning, int32_t neighbours[GAUGE_MOST_NEIGHBOURS]
);
uint64_t gauge_raw_line_reset(
    uint64_t *stages, uint64_t *r, int32_t integrators[GAUGE_MOST_STAGES], int32_t combs[GAUGE_MOST_STAGES],
    uint64_t *sample_counter, int16_t taps[GAUGE_MOST_TAPS], uint64_t *tap_count, uint64_t *factor,
    int16_t fir_delay[GAUGE_MOST_TAPS], uint64_t *wait, uint64_t *depth, float delays[GAUGE_HBF_DEC_DELAYS],
    float held[GAUGE_MOST_DEPTH], uint64_t counts[GAUGE_MOST_DEPTH], uint64_t *phases, uint64_t *phase_taps,
    uint64_t *straight, float *mu, float *step, float delay[GAUGE_MOST_PHASE_TAPS],
    float prototype[GAUGE_MOST_PROTOTYPE], uint32_t *cuts, uint64_t *thinning, int32_t neighbours[GAUGE_MOST_NEIGHBOURS]
);
uint64_t gauge_raw_line_step(
    uint64_t *stages, uint64_t *r, int32_t integrators[GAUGE_MOST_STAGES], int32_t combs[GAUGE_MOST_STAGES],
    uint64_t *sample_counter, int16_t taps[GAUGE_MOST_TAPS], uint64_t *tap_count, uint64_t *factor,
    int16_t fir_delay[GAUGE_MOST_TAPS], uint64_t *wait, uint64_t *depth, float delays[GAUGE_HBF_DEC_DELAYS],
    float held[GAUGE_MOST_DEPTH], uint64_t counts[GAUGE_MOST_DEPTH], uint64_t *phases, uint64_t *phase_taps,
    uint64_t *straight, float *mu, float *step, float delay[GAUGE_MOST_PHASE_TAPS],
    float prototype[GAUGE_MOST_PROTOTYPE], uint32_t *cuts, uint64_t *thinning,
    int32_t neighbours[GAUGE_MOST_NEIGHBOURS], const int32_t *samples, uint64_t samples_len, uint64_t at,
    uint64_t places, uint64_t *taken, uint64_t *written, float *value
);
uint64_t gauge_raw_line_feed(
    uint64_t *stages, uint64_t *r, int32_t integrators[GAUGE_MOST_STAGES], int32_t combs[GAUGE_MOST_STAGES],
    uint64_t *sample_counter, int16_t taps[GAUGE_MOST_TAPS], uint64_t *tap_count, uint64_t *factor,
    int16_t fir_delay[GAUGE_MOST_TAPS], uint64_t *wait, uint64_t *depth, float delays[GAUGE_HBF_DEC_DELAYS],
    float held[GAUGE_MOST_DEPTH], uint64_t counts[GAUGE_MOST_DEPTH], uint64_t *phases, uint64_t *phase_taps,
    uint64_t *straight, float *mu, float *step, float delay[GAUGE_MOST_PHASE_TAPS],
    float prototype[GAUGE_MOST_PROTOTYPE], uint32_t *cuts, uint64_t *thinning,
    int32_t neighbours[GAUGE_MOST_NEIGHBOURS], const int32_t *samples, uint64_t samples_len, float *out,
    uint64_t out_len, uint64_t *taken, uint64_t *written
);

uint64_t gauge_raw_hbf_dec_new(
    const float *taps, uint64_t taps_len, uint64_t *m, float coeffs[GAUGE_MOST_HALF_BAND_TAPS],
    float delay[GAUGE_HBF_DEC_DELAY]
);
uint64_t
gauge_raw_hbf_dec_reset(uint64_t *m, float coeffs[GAUGE_MOST_HALF_BAND_TAPS], float delay[GAUGE_HBF_DEC_DELAY]);
uint64_t gauge_raw_hbf_dec_process_pair(
    uint64_t *m, float coeffs[GAUGE_MOST_HALF_BAND_TAPS], float delay[GAUGE_HBF_DEC_DELAY], float a, float b,
    float *value
);
uint64_t gauge_raw_hbf_dec_process(
    uint64_t *m, float coeffs[GAUGE_MOST_HALF_BAND_TAPS], float delay[GAUGE_HBF_DEC_DELAY], const float *src,
    uint64_t src_len, float *dst, uint64_t dst_len, uint64_t *written
);

uint64_t gauge_raw_hbf_dec_cascade_new(uint64_t wanted_depth, uint64_t *depth, float delays[GAUGE_HBF_DEC_DELAYS]);
uint64_t gauge_raw_hbf_dec_cascade_reset(uint64_t *depth, float delays[GAUGE_HBF_DEC_DELAYS]);
uint64_t gauge_raw_hbf_dec_cascade_process(
    uint64_t *depth, float delays[GAUGE_HBF_DEC_DELAYS], const float *src, uint64_t src_len, float *dst,
    uint64_t dst_len, uint64_t *written
);

uint64_t gauge_raw_hbf_dec_cascade_98_new(uint64_t wanted_depth, uint64_t *depth, float delays[GAUGE_HBF_DEC_DELAYS]);
uint64_t gauge_raw_hbf_dec_cascade_98_reset(uint64_t *depth, float delays[GAUGE_HBF_DEC_DELAYS]);
uint64_t gauge_raw_hbf_dec_cascade_98_process(
    uint64_t *depth, float delays[GAUGE_HBF_DEC_DELAYS], const float *src, uint64_t src_len, float *dst,
    uint64_t dst_len, uint64_t *written
);

uint64_t gauge_raw_hbf_int_new(
    const float *taps, uint64_t taps_len, uint64_t *m, float coeffs[GAUGE_MOST_HALF_BAND_TAPS],
    float delay[GAUGE_HBF_INT_DELAY]
);
uint64_t
gauge_raw_hbf_int_reset(uint64_t *m, float coeffs[GAUGE_MOST_HALF_BAND_TAPS], float delay[GAUGE_HBF_INT_DELAY]);
uint64_t gauge_raw_hbf_int_process_sample(
    uint64_t *m, float coeffs[GAUGE_MOST_HALF_BAND_TAPS], float delay[GAUGE_HBF_INT_DELAY], float x, float *even,
    float *odd
);
uint64_t gauge_raw_hbf_int_process(
    uint64_t *m, float coeffs[GAUGE_MOST_HALF_BAND_TAPS], float delay[GAUGE_HBF_INT_DELAY], const float *src,
    uint64_t src_len, float *dst, uint64_t dst_len, uint64_t *written
);

uint64_t gauge_raw_hbf_int_cascade_new(uint64_t wanted_depth, uint64_t *depth, float delays[GAUGE_HBF_INT_DELAYS]);
uint64_t gauge_raw_hbf_int_cascade_reset(uint64_t *depth, float delays[GAUGE_HBF_INT_DELAYS]);
uint64_t gauge_raw_hbf_int_cascade_process(
    uint64_t *depth, float delays[GAUGE_HBF_INT_DELAYS], const float *src, uint64_t src_len, float *dst,
    uint64_t dst_len, uint64_t *written
);

uint64_t gauge_raw_hbf_stream_new(
    uint64_t wanted_depth, uint64_t *depth, float delays[GAUGE_HBF_DEC_DELAYS], float held[GAUGE_MOST_DEPTH],
    uint64_t counts[GAUGE_MOST_DEPTH]
);
uint64_t gauge_raw_hbf_stream_reset(
    uint64_t *depth, float delays[GAUGE_HBF_DEC_DELAYS], float held[GAUGE_MOST_DEPTH], uint64_t counts[GAUGE_MOST_DEPTH]
);
uint64_t gauge_raw_hbf_stream_process_sample(
    uint64_t *depth, float delays[GAUGE_HBF_DEC_DELAYS], float held[GAUGE_MOST_DEPTH],
    uint64_t counts[GAUGE_MOST_DEPTH], float x, uint64_t *made, float *value
);

uint64_t gauge_raw_linear_phase_fir_new(
    uint64_t wanted_odd, uint64_t wanted_antisymmetric, const float *wanted_taps, uint64_t wanted_taps_len, uint64_t *m,
    uint64_t *odd, uint64_t *antisymmetric, float taps[GAUGE_MOST_LINEAR_PHASE_TAPS],
    float delay[GAUGE_LINEAR_PHASE_DELAY]
);
uint64_t gauge_raw_linear_phase_fir_reset(
    uint64_t *m, uint64_t *odd, uint64_t *antisymmetric, float taps[GAUGE_MOST_LINEAR_PHASE_TAPS],
    float delay[GAUGE_LINEAR_PHASE_DELAY]
);
uint64_t gauge_raw_linear_phase_fir_response_length(
    uint64_t m, uint64_t odd, uint64_t antisymmetric, const float taps[GAUGE_MOST_LINEAR_PHASE_TAPS],
    const float delay[GAUGE_LINEAR_PHASE_DELAY], uint64_t *length
);
uint64_t gauge_raw_linear_phase_fir_process(
    uint64_t *m, uint64_t *odd, uint64_t *antisymmetric, float taps[GAUGE_MOST_LINEAR_PHASE_TAPS],
    float delay[GAUGE_LINEAR_PHASE_DELAY], float x, float *value
);
uint64_t gauge_raw_linear_phase_fir_block(
    uint64_t *m, uint64_t *odd, uint64_t *antisymmetric, float taps[GAUGE_MOST_LINEAR_PHASE_TAPS],
    float delay[GAUGE_LINEAR_PHASE_DELAY], const float *src, uint64_t src_len, float *span, uint64_t span_len,
    uint64_t *written
);
uint64_t gauge_raw_linear_phase_fir_inplace(
    uint64_t *m, uint64_t *odd, uint64_t *antisymmetric, float taps[GAUGE_MOST_LINEAR_PHASE_TAPS],
    float delay[GAUGE_LINEAR_PHASE_DELAY], float *span, uint64_t span_len, uint64_t *written
);

uint64_t gauge_raw_nonrecursive_decimator_new(
    uint64_t wanted_stages, uint64_t wanted_r, uint64_t *stages, uint64_t *r, int32_t neighbours[GAUGE_MOST_NEIGHBOURS],
    uint64_t *place
);
uint64_t gauge_raw_nonrecursive_decimator_gain(
    uint64_t stages, uint64_t r, const int32_t neighbours[GAUGE_MOST_NEIGHBOURS], uint64_t place, uint64_t *gain
);
uint64_t gauge_raw_nonrecursive_decimator_gain_bits(
    uint64_t stages, uint64_t r, const int32_t neighbours[GAUGE_MOST_NEIGHBOURS], uint64_t place, uint32_t *bits
);
uint64_t gauge_raw_nonrecursive_decimator_process_sample(
    uint64_t *stages, uint64_t *r, int32_t neighbours[GAUGE_MOST_NEIGHBOURS], uint64_t *place, int32_t input,
    uint64_t *made, int32_t *sum
);
uint64_t gauge_raw_nonrecursive_decimator_process_sample_scaled(
    uint64_t *stages, uint64_t *r, int32_t neighbours[GAUGE_MOST_NEIGHBOURS], uint64_t *place, int32_t input,
    uint64_t *made, int32_t *sum
);
uint64_t gauge_raw_nonrecursive_decimator_process_block(
    uint64_t *stages, uint64_t *r, int32_t neighbours[GAUGE_MOST_NEIGHBOURS], uint64_t *place, const int32_t *src,
    uint64_t src_len, int32_t *dst, uint64_t dst_len, uint64_t *taken, uint64_t *written
);

uint64_t gauge_raw_line_parked_len(
    uint64_t stages, uint64_t r, const int32_t integrators[GAUGE_MOST_STAGES], const int32_t combs[GAUGE_MOST_STAGES],
    uint64_t sample_counter, const int16_t taps[GAUGE_MOST_TAPS], uint64_t tap_count, uint64_t factor,
    const int16_t fir_delay[GAUGE_MOST_TAPS], uint64_t wait, uint64_t depth, const float delays[GAUGE_HBF_DEC_DELAYS],
    const float held[GAUGE_MOST_DEPTH], const uint64_t counts[GAUGE_MOST_DEPTH], uint64_t phases, uint64_t phase_taps,
    uint64_t straight, float mu, float step, const float delay[GAUGE_MOST_PHASE_TAPS],
    const float prototype[GAUGE_MOST_PROTOTYPE], uint32_t cuts, uint64_t thinning,
    const int32_t neighbours[GAUGE_MOST_NEIGHBOURS], uint64_t *bytes
);
uint64_t gauge_raw_line_park(
    uint64_t stages, uint64_t r, const int32_t integrators[GAUGE_MOST_STAGES], const int32_t combs[GAUGE_MOST_STAGES],
    uint64_t sample_counter, const int16_t taps[GAUGE_MOST_TAPS], uint64_t tap_count, uint64_t factor,
    const int16_t fir_delay[GAUGE_MOST_TAPS], uint64_t wait, uint64_t depth, const float delays[GAUGE_HBF_DEC_DELAYS],
    const float held[GAUGE_MOST_DEPTH], const uint64_t counts[GAUGE_MOST_DEPTH], uint64_t phases, uint64_t phase_taps,
    uint64_t straight, float mu, float step, const float delay[GAUGE_MOST_PHASE_TAPS],
    const float prototype[GAUGE_MOST_PROTOTYPE], uint32_t cuts, uint64_t thinning,
    const int32_t neighbours[GAUGE_MOST_NEIGHBOURS], uint8_t *span, uint64_t span_len, uint64_t *written
);
uint64_t gauge_raw_line_take_up_3(
    const uint8_t *bytes, uint64_t bytes_len, uint64_t *stages, uint64_t *r, int32_t integrators[GAUGE_MOST_STAGES],
    int32_t combs[GAUGE_MOST_STAGES], uint64_t *sample_counter, int16_t taps[GAUGE_MOST_TAPS], uint64_t *tap_count,
    uint64_t *factor, int16_t fir_delay[GAUGE_MOST_TAPS], uint64_t *wait, uint64_t *depth,
    float delays[GAUGE_HBF_DEC_DELAYS], float held[GAUGE_MOST_DEPTH], uint64_t counts[GAUGE_MOST_DEPTH],
    uint64_t *phases, uint64_t *phase_taps, uint64_t *straight, float *mu, float *step,
    float delay[GAUGE_MOST_PHASE_TAPS], float prototype[GAUGE_MOST_PROTOTYPE], uint32_t *cuts, uint64_t *thinning,
    int32_t neighbours[GAUGE_MOST_NEIGHBOURS]
);

uint64_t gauge_raw_polyphase_resamp_from_taps(
    uint64_t wanted_phases, uint64_t wanted_taps, const float *wanted_prototype, uint64_t wanted_prototype_len,
    float wanted_step, uint64_t *phases, uint64_t *taps, uint64_t *straight, float *mu, float *step,
    float delay[GAUGE_MOST_PHASE_TAPS], float prototype[GAUGE_MOST_PROTOTYPE]
);
uint64_t gauge_raw_polyphase_resamp_from_taps_straight(
    uint64_t wanted_phases, uint64_t wanted_taps, const float *wanted_prototype, uint64_t wanted_prototype_len,
    float wanted_step, uint64_t *phases, uint64_t *taps, uint64_t *straight, float *mu, float *step,
    float delay[GAUGE_MOST_PHASE_TAPS], float prototype[GAUGE_MOST_PROTOTYPE]
);
uint64_t gauge_raw_polyphase_resamp_reset(
    uint64_t *phases, uint64_t *taps, uint64_t *straight, float *mu, float *step, float delay[GAUGE_MOST_PHASE_TAPS],
    float prototype[GAUGE_MOST_PROTOTYPE]
);
uint64_t gauge_raw_polyphase_resamp_process_block(
    uint64_t *phases, uint64_t *taps, uint64_t *straight, float *mu, float *step, float delay[GAUGE_MOST_PHASE_TAPS],
    float prototype[GAUGE_MOST_PROTOTYPE], const float *src, uint64_t src_len, float *dst, uint64_t dst_len,
    uint64_t *taken, uint64_t *written
);
uint64_t gauge_raw_polyphase_resamp_push(
    uint64_t *phases, uint64_t *taps, uint64_t *straight, float *mu, float *step, float delay[GAUGE_MOST_PHASE_TAPS],
    float prototype[GAUGE_MOST_PROTOTYPE], float x, float *out, uint64_t out_len, uint64_t *written
);

uint64_t gauge_raw_sheet_count(const uint8_t *bytes, uint64_t bytes_len, uint64_t *count);
uint64_t gauge_raw_sheet_entry(
    const uint8_t *bytes, uint64_t bytes_len, uint64_t count, uint64_t k, uint64_t *offset, uint64_t *size
);

#ifdef __cplusplus
}
#endif

#endif
