#include "cost.h"
#include "gauge_resampler.h"

#define PHASES 16
#define PHASE_TAPS 8

static GaugePolyphaseResamp resampler;
static float levels[SAMPLES];

static uint64_t feed(void) {
    uint64_t taken, written;
    return GaugePolyphaseResamp_process_block(&resampler, samples_f32, SAMPLES, levels, SAMPLES, &taken, &written);
}

void costs(void) {
    static float prototype[PHASES * PHASE_TAPS];
    GaugePolyphaseResamp_from_taps(&resampler, PHASES, PHASE_TAPS, prototype, PHASES * PHASE_TAPS, 1.5f);
    cost_row("resampler alone, 16 phases of 8 taps, step 1.5", feed);
}
