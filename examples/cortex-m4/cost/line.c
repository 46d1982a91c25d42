// The line, with more of its parts from row to row.
#include "cost.h"
#include "gauge_line.h"

#define PHASES 16
#define PHASE_TAPS 8

static GaugeLine line;
static float levels[SAMPLES];

static void open(uint64_t tap_count, uint64_t depth, uint64_t phases) {
    static int16_t taps[32];
    static float prototype[PHASES * PHASE_TAPS];
    const GaugeSettings settings = {
        .stages = 3, .r = 16, .factor = 2, .depth = depth, .phases = phases, .phase_taps = PHASE_TAPS, .step = 1.5f};
    GaugeLine_open(&line, &settings, taps, tap_count, prototype, phases == 0 ? 0 : PHASES * PHASE_TAPS);
}

static uint64_t feed(void) {
    uint64_t taken, written;
    return GaugeLine_feed(&line, samples_i32, SAMPLES, levels, SAMPLES, &taken, &written);
}

void costs(void) {
    open(0, 0, 0);
    cost_row("line: 3 CIC stages, r = 16", feed);
    open(32, 0, 0);
    cost_row("and 32 FIR taps, every second output", feed);
    open(32, 2, 0);
    cost_row("and half-band depth 2", feed);
    open(32, 2, PHASES);
    cost_row("and 16 phases of 8 taps, step 1.5", feed);
}
