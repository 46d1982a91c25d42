// Our sides: the archive by its headers.
#include "peers.h"
#include <gauge_cic.h>
#include <gauge_half_band.h>
#include <gauge_line.h>
#include <gauge_q15.h>
#include <gauge_resampler.h>
#include <stdlib.h>

static void accepted(uint64_t refused) {
    if (refused != GAUGE_NOT_REFUSED) {
        fail("a call of ours is refused");
    }
}

// Of a call that must have taken its whole block.
static size_t all(uint64_t refused, uint64_t taken, uint64_t written) {
    accepted(refused);
    if (taken != BLOCK) {
        fail("a call of ours leaves samples");
    }
    return written;
}

static const float *prototype(void) {
    static float numbers[64 * 16];
    for (size_t i = 0; i < 64 * 16; i++) {
        numbers[i] = (float)((i * 7 + 3) % 64) / 640;
    }
    return numbers;
}

static void *resampler(uint64_t phases, uint64_t taps) {
    GaugePolyphaseResamp *state = malloc(sizeof *state);
    accepted(GaugePolyphaseResamp_from_taps(state, phases, taps, prototype(), phases * taps, (float)STEP));
    return state;
}

static void *resampler_8(void) {
    return resampler(32, 8);
}

static void *resampler_16(void) {
    return resampler(64, 16);
}

static size_t resampled(void *state, Samples samples, void *places) {
    uint64_t taken, written;
    uint64_t refused =
        GaugePolyphaseResamp_process_block(state, samples.levels, BLOCK, places, PLACES, &taken, &written);
    return all(refused, taken, written);
}

static void *line_c(void) {
    const GaugeSettings settings = {.stages = 1, .r = 1, .phases = 32, .phase_taps = 8, .step = (float)STEP};
    GaugeLine *line = malloc(sizeof *line);
    accepted(GaugeLine_open(line, &settings, NULL, 0, prototype(), 32 * 8));
    return line;
}

static size_t fed(void *line, Samples samples, void *places) {
    uint64_t taken, written;
    uint64_t refused = GaugeLine_feed(line, samples.cells, BLOCK, places, PLACES, &taken, &written);
    return all(refused, taken, written);
}

static size_t linear(void *state, Samples samples, void *places) {
    (void)state;
    uint64_t written;
    uint64_t count = (uint64_t)(BLOCK / STEP);
    accepted(gauge_raw_resample_linear_f32(samples.levels, BLOCK, places, count, (float)STEP, &written));
    return written;
}

static void *cascade(uint64_t depth) {
    GaugeHbfDecCascade *state = malloc(sizeof *state);
    accepted(GaugeHbfDecCascade_new(state, depth));
    return state;
}

static void *cascade_3(void) {
    return cascade(3);
}

static void *cascade_5(void) {
    return cascade(5);
}

static size_t halved(void *state, Samples samples, void *places) {
    uint64_t written;
    accepted(GaugeHbfDecCascade_process(state, samples.levels, BLOCK, places, PLACES, &written));
    return written;
}

static void *cascade_98(void) {
    GaugeHbfDecCascade98 *state = malloc(sizeof *state);
    accepted(GaugeHbfDecCascade98_new(state, 5));
    return state;
}

static size_t halved_98(void *state, Samples samples, void *places) {
    uint64_t written;
    accepted(GaugeHbfDecCascade98_process(state, samples.levels, BLOCK, places, PLACES, &written));
    return written;
}

// Taps small enough that no sum is cut.
static void *fir_taps(void) {
    int16_t *taps = malloc(FIR_TAPS * sizeof *taps);
    for (int i = 0; i < FIR_TAPS; i++) {
        taps[i] = (int16_t)(i * 37 % 1000 - 500);
    }
    return taps;
}

static size_t filtered(void *taps, Samples samples, void *places) {
    uint64_t written, cuts;
    accepted(gauge_raw_polyphase_decimate_q15(
        samples.fixed, BLOCK + FIR_TAPS - FIR_FACTOR, taps, FIR_TAPS, FIR_FACTOR, places, BLOCK / FIR_FACTOR, &written,
        &cuts
    ));
    return written;
}

static void *cic(void) {
    GaugeCicDecimator *state = malloc(sizeof *state);
    accepted(GaugeCicDecimator_new(state, CIC_STAGES, CIC_FACTOR));
    return state;
}

static size_t thinned(void *state, Samples samples, void *places) {
    uint64_t taken, written;
    uint64_t refused = GaugeCicDecimator_process_block(state, samples.cells, BLOCK, places, PLACES, &taken, &written);
    return all(refused, taken, written);
}

static void *nothing(void) {
    static char state;
    return &state;
}

const Side ours[] = {
    {RESAMPLER_8, "ours, PolyphaseResampF32 32x8", "f32, any step; blends two of 32 phases", resampler_8, resampled},
    {LINE_C, "ours, line C", "cut to 16 bits, any step; counts what was cut", line_c, fed},
    {RESAMPLER_16, "ours, PolyphaseResampF32 64x16", "f32, any step; blends two of 64 phases", resampler_16, resampled},
    {LINEAR, "ours, resample_linear_f32", "no filter and no state: a block by itself", nothing, linear},
    {DEPTH_3, "ours, HbfDecCascade depth 3", "taps 11, 15, 19; 140 dB up to 0.13 of the output rate", cascade_3,
     halved},
    {DEPTH_5, "ours, HbfDecCascade depth 5", "taps 11, 15, 19, 39, 91; 140 dB up to 0.4", cascade_5, halved},
    {DEPTH_5_98, "ours, HbfDecCascade98 depth 5", "taps 7, 11, 11, 23, 59; 98 dB up to 0.4", cascade_98, halved_98},
    {FIR, "ours, polyphase_decimate_q15", "16 bits, each product rounded down, sums cut and counted", fir_taps,
     filtered},
    {CIC, "ours, CicDecimator", "32 bits, sums modulo 2^32", cic, thinned},
    {.name = NULL},
};
