// Linear-phase filters of the four kinds, each over three streams of floats.
#include "gauge_linear_phase.h"
#include "outputs.h"
#include "print.h"
#include "samples.h"

#define FEEDS 6
#define SHORT 60
// So long that a filter goes over its tape several times.
#define LONG 700

// Two places stay unwritten.
static float src[LONG], span[LONG + 2], taps[GAUGE_MOST_LINEAR_PHASE_TAPS + 1];

static void put_filter(const GaugeLinearPhaseFir *state) {
    put_number("m", state->m);
    put_number("odd", state->odd);
    put_number("antisymmetric", state->antisymmetric);
    put_values("taps", F32, state->taps, GAUGE_MOST_LINEAR_PHASE_TAPS);
    put_values("delay", F32, state->delay, GAUGE_LINEAR_PHASE_DELAY);
}

static uint64_t opened(GaugeLinearPhaseFir *state, int kind, uint64_t m) {
    switch (kind) {
    case 0:
        return GaugeLinearPhaseFir_even_symmetric(state, taps, m);
    case 1:
        return GaugeLinearPhaseFir_odd_symmetric(state, taps, m);
    case 2:
        return GaugeLinearPhaseFir_even_antisymmetric(state, taps, m);
    default:
        return GaugeLinearPhaseFir_odd_antisymmetric(state, taps, m);
    }
}

// A block, the same in place, a sample, and a block whose span is longer than its source.
static void feed(GaugeLinearPhaseFir *state, Stream stream, uint64_t len) {
    uint64_t written, refused;
    float value;
    fill_f32(stream, src, len);
    refused = GaugeLinearPhaseFir_block(state, src, len, span, len, &written);
    put_counts("block", refused, len, written);
    put_values("span", F32, span, len + 2);
    refused = GaugeLinearPhaseFir_inplace(state, span, len, &written);
    put_counts("inplace", refused, len, written);
    put_values("span", F32, span, len + 2);
    refused = GaugeLinearPhaseFir_process(state, sample_f32(stream), &value);
    put_number("process", refused);
    put_values("value", F32, &value, 1);
    refused = GaugeLinearPhaseFir_block(state, src, len, span, len + 1, &written);
    put_counts("lengths", refused, len, written);
}

static void filter(Stream stream, int kind, uint64_t m) {
    GaugeLinearPhaseFir state;
    uint64_t length;
    put_counts("LinearPhaseFir", opened(&state, kind, m), (uint64_t)kind, m);
    put_number("response_length", GaugeLinearPhaseFir_response_length(&state, &length));
    put_number("length", length);
    for (int i = 0; i < FEEDS; i++) {
        feed(&state, stream, i == 0 ? LONG : below(SHORT));
    }
    put_filter(&state);
    // Any number but 0 says yes.
    state.odd *= 0x100000000;
    feed(&state, stream, SHORT);
    put_number("reset", GaugeLinearPhaseFir_reset(&state));
    put_filter(&state);
}

void linear_phase_outputs(void) {
    static const uint64_t taps_wanted[6] = {0, 1, 3, 10, 23, 24};
    seed(19);
    fill_f32(ORDINARY, taps, GAUGE_MOST_LINEAR_PHASE_TAPS + 1);
    fill_f32(ORDINARY, span, LONG + 2);
    for (int stream = ORDINARY; stream < STREAMS; stream++) {
        for (int kind = 0; kind < 4; kind++) {
            for (int i = 0; i < 6; i++) {
                filter((Stream)stream, kind, taps_wanted[i]);
            }
        }
    }
}
