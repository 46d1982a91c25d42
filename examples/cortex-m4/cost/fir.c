#include "cost.h"
#include "gauge_q15.h"

static GaugeFirDecimator fir;

static uint64_t feed(void) {
    uint64_t made, cut, refused = 0;
    int16_t value;
    for (uint32_t i = 0; i < SAMPLES; i++) {
        refused |= GaugeFirDecimator_process_sample(&fir, samples_i16[i], &made, &value, &cut);
    }
    return refused;
}

void costs(void) {
    static int16_t taps[32];
    GaugeFirDecimator_new(&fir, taps, 32, 2);
    cost_row("FIR decimator alone, 32 taps, factor 2", feed);
}
