// liquid-dsp.
#include "peers.h"
#include <complex.h>
#include <liquid/liquid.h>
#include <stdlib.h>

static void *resampler(unsigned reach, unsigned phases) {
    return resamp_rrrf_create((float)(1 / STEP), reach, 0.4f, 60.0f, phases);
}

static void *resampler_8(void) {
    return resampler(4, 32);
}

static void *resampler_16(void) {
    return resampler(8, 64);
}

static size_t resampled(void *state, Samples samples, void *places) {
    unsigned written;
    resamp_rrrf_execute_block(state, (float *)samples.levels, BLOCK, places, &written);
    return written;
}

static size_t from_cells(void *state, Samples samples, void *places) {
    float levels[BLOCK];
    to_levels(samples.cells, levels);
    return resampled(state, (Samples){.levels = levels}, places);
}

// Stages of our own lengths, one after the other over the block.
typedef struct {
    unsigned depth;
    resamp2_rrrf stages[5];
} Chain;

static void *chain(const unsigned *lengths, unsigned depth, float stop) {
    Chain *state = malloc(sizeof *state);
    state->depth = depth;
    for (unsigned i = 0; i < depth; i++) {
        state->stages[i] = resamp2_rrrf_create(lengths[i], 0, stop);
    }
    return state;
}

static const unsigned lengths_140[] = {3, 4, 5, 10, 23}, lengths_98[] = {2, 3, 3, 6, 15};

static void *chain_3(void) {
    return chain(lengths_140, 3, 140);
}

static void *chain_5(void) {
    return chain(lengths_140, 5, 140);
}

static void *chain_98(void) {
    return chain(lengths_98, 5, 98);
}

static size_t chained(void *state, Samples samples, void *places) {
    Chain *chain = state;
    float *from = (float *)samples.levels, *to = places;
    size_t count = BLOCK;
    for (unsigned i = 0; i < chain->depth; i++) {
        count /= 2;
        for (size_t at = 0; at < count; at++) {
            resamp2_rrrf_decim_execute(chain->stages[i], from + 2 * at, to + at);
        }
        from = to;
    }
    return count;
}

static void *cascade(unsigned depth, float stop) {
    return msresamp2_rrrf_create(LIQUID_RESAMP_DECIM, depth, 0.4f, 0, stop);
}

static void *cascade_3(void) {
    return cascade(3, 140);
}

static void *cascade_5(void) {
    return cascade(5, 140);
}

static void *cascade_98(void) {
    return cascade(5, 98);
}

// It takes what one output needs.
static size_t halved(void *state, Samples samples, float *places, size_t factor) {
    for (size_t i = 0; i < BLOCK / factor; i++) {
        msresamp2_rrrf_execute(state, (float *)samples.levels + i * factor, places + i);
    }
    return BLOCK / factor;
}

static size_t halved_3(void *state, Samples samples, void *places) {
    return halved(state, samples, places, 8);
}

static size_t halved_5(void *state, Samples samples, void *places) {
    return halved(state, samples, places, 32);
}

static void *fir(void) {
    float taps[FIR_TAPS];
    liquid_firdes_kaiser(FIR_TAPS, 0.125f, 60.0f, 0.0f, taps);
    return firdecim_rrrf_create(FIR_FACTOR, taps, FIR_TAPS);
}

// The CIC decimator's own response: a moving sum of CIC_FACTOR samples, CIC_STAGES times over.
static void *moving_sums(void) {
    enum { TAPS = CIC_STAGES * (CIC_FACTOR - 1) + 1 };
    float taps[TAPS] = {1}, sums[TAPS];
    for (int stage = 0; stage < CIC_STAGES; stage++) {
        for (int i = 0; i < TAPS; i++) {
            sums[i] = 0;
            for (int back = 0; back < CIC_FACTOR && back <= i; back++) {
                sums[i] += taps[i - back];
            }
        }
        for (int i = 0; i < TAPS; i++) {
            taps[i] = sums[i];
        }
    }
    return firdecim_rrrf_create(CIC_FACTOR, taps, TAPS);
}

static size_t filtered(void *state, Samples samples, void *places) {
    firdecim_rrrf_execute_block(state, (float *)samples.levels, BLOCK / FIR_FACTOR, places);
    return BLOCK / FIR_FACTOR;
}

static size_t thinned(void *state, Samples samples, void *places) {
    firdecim_rrrf_execute_block(state, (float *)samples.levels, BLOCK / CIC_FACTOR, places);
    return BLOCK / CIC_FACTOR;
}

const Side liquid[] = {
    {RESAMPLER_8, "liquid-dsp, resamp_rrrf m=4 npfb=32", "9 taps of the nearest phase, none blended", resampler_8,
     resampled},
    {LINE_C, "liquid-dsp, resamp_rrrf m=4 npfb=32", "the same behind a loop to floats; nothing cut", resampler_8,
     from_cells},
    {RESAMPLER_16, "liquid-dsp, resamp_rrrf m=8 npfb=64", "17 taps of the nearest phase, none blended", resampler_16,
     resampled},
    {DEPTH_3, "liquid-dsp, resamp2_rrrf m=3, 4, 5", "as many taps that are not 0, by Kaiser windows", chain_3, chained},
    {DEPTH_3, "liquid-dsp, msresamp2_rrrf fc=0.4 As=140", "140 dB up to 0.4: taps 29, 49, 97", cascade_3, halved_3},
    {DEPTH_5, "liquid-dsp, resamp2_rrrf m=3, 4, 5, 10, 23", "as many taps that are not 0, by Kaiser windows", chain_5,
     chained},
    {DEPTH_5, "liquid-dsp, msresamp2_rrrf fc=0.4 As=140", "140 dB up to 0.4: taps 21, 25, 29, 49, 97", cascade_5,
     halved_5},
    {DEPTH_5_98, "liquid-dsp, resamp2_rrrf m=2, 3, 3, 6, 15", "as many taps that are not 0, by Kaiser windows",
     chain_98, chained},
    {DEPTH_5_98, "liquid-dsp, msresamp2_rrrf fc=0.4 As=98", "98 dB up to 0.4: taps 17, 17, 21, 33, 69", cascade_98,
     halved_5},
    {FIR, "liquid-dsp, firdecim_rrrf", "f32, rounded as it comes, nothing cut; has a state", fir, filtered},
    {CIC, "liquid-dsp, firdecim_rrrf 46 taps", "no CIC there: its response as a FIR, in f32", moving_sums, thinned},
    {.name = NULL},
};
