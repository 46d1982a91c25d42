#include "cost.h"
#include "gauge_half_band.h"

static GaugeHbfStream stream;

static uint64_t feed(void) {
    uint64_t made, refused = 0;
    float value;
    for (uint32_t i = 0; i < SAMPLES; i++) {
        refused |= GaugeHbfStream_process_sample(&stream, samples_f32[i], &made, &value);
    }
    return refused;
}

void costs(void) {
    GaugeHbfStream_new(&stream, 2);
    cost_row("half-band stages alone, depth 2", feed);
}
