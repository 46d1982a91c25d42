// soxr. Its better recipes, and all that decimate, work in chunks of their own and hold samples back for them.
#include "peers.h"
#include <soxr.h>

static void *opened(double step, unsigned long quality) {
    soxr_quality_spec_t recipe = soxr_quality_spec(quality, 0);
    soxr_runtime_spec_t threads = soxr_runtime_spec(1);
    return soxr_create(step, 1, 1, NULL, NULL, &recipe, &threads);
}

static void *quick(void) {
    return opened(STEP, SOXR_QQ);
}

static void *low(void) {
    return opened(STEP, SOXR_LQ);
}

static void *high(void) {
    return opened(STEP, SOXR_HQ);
}

static void *very_high_8(void) {
    return opened(8, SOXR_VHQ);
}

static void *very_high_32(void) {
    return opened(32, SOXR_VHQ);
}

static void *low_32(void) {
    return opened(32, SOXR_LQ);
}

static size_t resampled(void *state, Samples samples, void *places) {
    size_t taken, written;
    if (soxr_process(state, samples.levels, BLOCK, &taken, places, PLACES, &written) != NULL || taken != BLOCK) {
        fail("soxr leaves samples");
    }
    return written;
}

static size_t from_cells(void *state, Samples samples, void *places) {
    float levels[BLOCK];
    to_levels(samples.cells, levels);
    return resampled(state, (Samples){.levels = levels}, places);
}

const Side soxr[] = {
    {RESAMPLER_8, "soxr, LQ", "16 bits, passband 68 %, one ratio", low, resampled},
    {LINE_C, "soxr, LQ", "the same behind a loop to floats; nothing cut", low, from_cells},
    {RESAMPLER_16, "soxr, LQ", "16 bits, passband 68 %, one ratio", low, resampled},
    {RESAMPLER_16, "soxr, HQ", "20 bits, passband 91 %, one ratio; held back in chunks", high, resampled},
    {LINEAR, "soxr, QQ", "cubic; has a state", quick, resampled},
    {DEPTH_3, "soxr, VHQ", "28 bits, passband 91 %; held back in chunks", very_high_8, resampled},
    {DEPTH_5, "soxr, VHQ", "28 bits, passband 91 %; held back in chunks", very_high_32, resampled},
    {DEPTH_5_98, "soxr, LQ", "16 bits, passband 68 %; held back in chunks", low_32, resampled},
    {.name = NULL},
};
