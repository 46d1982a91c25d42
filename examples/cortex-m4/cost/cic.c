#include "cost.h"
#include "gauge_cic.h"

static GaugeCicDecimator cic;
static int32_t sums[SAMPLES];

static uint64_t feed(void) {
    uint64_t taken, written;
    return GaugeCicDecimator_process_block(&cic, samples_i32, SAMPLES, sums, SAMPLES, &taken, &written);
}

void costs(void) {
    GaugeCicDecimator_new(&cic, 3, 16);
    cost_row("CIC decimator alone, 3 stages, r = 16", feed);
}
