// Resamplers on floats: by a polyphase filter, and by straight lines. Every operation rounds once, in a fixed order.
// What gauge_line.h says of the caller holds here too.
#ifndef GAUGE_RESAMPLER_H
#define GAUGE_RESAMPLER_H

#include "gauge_fp.h"
#include "gauge_raw.h"
#include "gauge_refusal.h"
#include <stdint.h>

#ifdef __cplusplus
extern "C" {
#endif

// Fills dst: output i is at i * ratio, rounded to a float, between the two samples there; past the end the last sample.
// Refusals: 7, 9.
// printed: function gauge_raw_resample_linear_f32
uint64_t gauge_raw_resample_linear_f32(
    const float *src, uint64_t src_len, float *dst, uint64_t dst_len, float ratio, uint64_t *written
);
// printed until here

// A polyphase resampler. mu is the place of the next output: below 1 it is due.
//
// The prototype: tap t of phase p stands at t * phases + p, and tap t meets the t-th sample before the newest. An
// output mu after the newest sample reads phase (1 - mu) * phases, so a later output reads a lower phase. A filter h as
// design programs give it, for `phases` times the input rate, is therefore laid with each row reversed:
//
//   prototype[t * phases + p] = h[(t + 1) * phases - p]        0 where h has no such place; h[0] is not used
//
//            p = 0    1        2        ..   phases - 1
//   t = 0    h[P]     h[P-1]   h[P-2]   ..   h[1]              P: phases
//   t = 1    h[2P]    h[2P-1]  h[2P-2]  ..   h[P+1]
//
// Laid in its own order, h makes levels that jump. Phases wrap, as in the Rust original: an output with mu below
// 1 / phases is drawn between the last phase and phase 0 of the same samples, and one at mu = 0, as every output at
// step 1, is drawn on from phases 0 and 1 by `phases` times their difference.
//
// Straight phase, GaugePolyphaseResamp_from_taps_straight, takes the prototype as one row: with p the whole part of
// (1 - mu) * phases, from 0 to `phases`, an output is drawn between the places t * phases + p and t * phases + p + 1, a
// place past the end being 0. It is for steps of whole samples, which then read one place of each row, and for a filter
// h in its natural order, prototype[i] = h[i]. At any other step its levels jump, and a prototype laid as above may
// give nothing but 0.
//
// `straight` is 0 in wrapped phase and 1 in straight phase; any other number is read as 1.
// printed: state polyphase_resamp
typedef struct {
    uint64_t phases;
    uint64_t taps;
    uint64_t straight;
    float mu;
    float step;
    float delay[GAUGE_MOST_PHASE_TAPS];
    float prototype[GAUGE_MOST_PROTOTYPE];
} GaugePolyphaseResamp;

#define GAUGE_POLYPHASE_RESAMP_FIELDS(s)                                                                               \
    &(s)->phases, &(s)->taps, &(s)->straight, &(s)->mu, &(s)->step, (s)->delay, (s)->prototype
// printed until here

// Opens a resampler of GAUGE_LEAST_PHASES to GAUGE_MOST_PHASES phases of 1 to GAUGE_MOST_PHASE_TAPS taps, `step` input
// samples for each output, any finite number above zero, in wrapped phase. The prototype is laid as above and copied.
// Refusals: 12, 13, 14; the state is then all zeros.
static inline uint64_t GaugePolyphaseResamp_from_taps(
    GaugePolyphaseResamp *state, uint64_t phases, uint64_t taps, const float *prototype, uint64_t prototype_len,
    float step
) {
    return gauge_raw_polyphase_resamp_from_taps(
        phases, taps, prototype, prototype_len, step, GAUGE_POLYPHASE_RESAMP_FIELDS(state)
    );
}

// Opens a resampler in straight phase; else as above.
static inline uint64_t GaugePolyphaseResamp_from_taps_straight(
    GaugePolyphaseResamp *state, uint64_t phases, uint64_t taps, const float *prototype, uint64_t prototype_len,
    float step
) {
    return gauge_raw_polyphase_resamp_from_taps_straight(
        phases, taps, prototype, prototype_len, step, GAUGE_POLYPHASE_RESAMP_FIELDS(state)
    );
}

// Makes the state what its opening made it.
// Refusals: 15.
static inline uint64_t GaugePolyphaseResamp_reset(GaugePolyphaseResamp *state) {
    return gauge_raw_polyphase_resamp_reset(GAUGE_POLYPHASE_RESAMP_FIELDS(state));
}

// While `dst` has a place: writes an output that is due, else consumes the next sample of `src`, else stops. Continue
// behind the samples taken; no output is lost or made twice. Both may be of any length.
// Refusals: 15, where the settings are refused or mu is not in -2^24 to 1 + step.
static inline uint64_t GaugePolyphaseResamp_process_block(
    GaugePolyphaseResamp *state, const float *src, uint64_t src_len, float *dst, uint64_t dst_len, uint64_t *taken,
    uint64_t *written
) {
    return gauge_raw_polyphase_resamp_process_block(
        GAUGE_POLYPHASE_RESAMP_FIELDS(state), src, src_len, dst, dst_len, taken, written
    );
}

// Consumes `x` whatever is due, then writes what is due while `out` has a place. Outputs still due after a full span
// are skipped by the next push, so a stream goes through GaugePolyphaseResamp_process_block.
// Refusals: 15, as there.
static inline uint64_t
GaugePolyphaseResamp_push(GaugePolyphaseResamp *state, float x, float *out, uint64_t out_len, uint64_t *written) {
    return gauge_raw_polyphase_resamp_push(GAUGE_POLYPHASE_RESAMP_FIELDS(state), x, out, out_len, written);
}

#undef GAUGE_POLYPHASE_RESAMP_FIELDS

// A prototype phase by phase, as an editor shows it, one phase a row: what stands at t * phases + p of `prototype` goes
// to p * taps + t of `rows`. Values are only moved; `written` is phases * taps. The two spans do not overlap.
// Refusals: 12; 13, where either span is not phases * taps long. `rows` then stays as it was.
// printed: function gauge_raw_prototype_by_phase
uint64_t gauge_raw_prototype_by_phase(
    uint64_t phases, uint64_t taps, const float *prototype, uint64_t prototype_len, float *rows, uint64_t rows_len,
    uint64_t *written
);
// printed until here

// And back: what stands at p * taps + t of `rows` goes to t * phases + p of `prototype`. Each call undoes the other.
// Refusals: 12; 13, as there. `prototype` then stays as it was.
// printed: function gauge_raw_prototype_by_tap
uint64_t gauge_raw_prototype_by_tap(
    uint64_t phases, uint64_t taps, const float *rows, uint64_t rows_len, float *prototype, uint64_t prototype_len,
    uint64_t *written
);
// printed until here

#ifdef __cplusplus
}
#endif

#endif
