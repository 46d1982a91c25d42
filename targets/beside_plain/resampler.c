// The resampler in wrapped phase.
#include "beside.h"
#include "gauge_resampler.h"
#include "plain.h"

static GaugePolyphaseResamp resampler;
static PlainResamp plain;

static uint32_t blocks(Outputs *to) {
    uint32_t made = 0;
    for (uint32_t i = 0; i < SAMPLES; i += BLOCK) {
        uint64_t taken, written;
        accepted(GaugePolyphaseResamp_process_block(
            &resampler, samples_f32 + i, BLOCK, to->levels + made, SPAN, &taken, &written
        ));
        made += (uint32_t)written;
    }
    return made;
}

static uint32_t pushes(Outputs *to) {
    uint32_t made = 0;
    for (uint32_t i = 0; i < SAMPLES; i++) {
        uint64_t written;
        accepted(GaugePolyphaseResamp_push(&resampler, samples_f32[i], to->levels + made, SPAN, &written));
        made += (uint32_t)written;
    }
    return made;
}

static uint32_t pushes_plain(Outputs *to) {
    uint32_t made = 0;
    for (uint32_t i = 0; i < SAMPLES; i++) {
        made += plain_resamp_push(&plain, samples_f32[i], to->levels + made);
    }
    return made;
}

static void open(uint32_t phases, uint32_t taps, float step) {
    accepted(GaugePolyphaseResamp_from_taps(&resampler, phases, taps, prototype, phases * taps, step));
    plain_resamp_open(&plain, phases, taps, prototype, step);
}

void resamplers(void) {
    open(32, 8, 0.9f);
    beside("`PolyphaseResampF32` 32x8 step 0.9, blocks of 64", 0, blocks, pushes_plain);
    open(64, 16, 0.5f);
    beside("`PolyphaseResampF32` 64x16 step 0.5, blocks of 64", 0, blocks, pushes_plain);
    open(32, 8, 0.9f);
    beside("`PolyphaseResampF32` 32x8 step 0.9, by `push`", 0, pushes, pushes_plain);
}
