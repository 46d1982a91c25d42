// speexdsp's resampler, at the ratio 10/9: it keeps the taps of each of ten phases, none blended.
#include "peers.h"
#include <speex/speex_resampler.h>

static void *opened(int quality) {
    int why;
    return speex_resampler_init_frac(1, 9, 10, 9000, 10000, quality, &why);
}

static void *quality_0(void) {
    return opened(0);
}

static void *quality_1(void) {
    return opened(1);
}

static void *quality_3(void) {
    return opened(3);
}

static void *by_8(void) {
    int why;
    return speex_resampler_init_frac(1, 8, 1, 8000, 1000, 3, &why);
}

static size_t resampled(void *state, Samples samples, void *places) {
    spx_uint32_t taken = BLOCK, written = PLACES;
    int refused = speex_resampler_process_float(state, 0, samples.levels, &taken, places, &written);
    if (refused != RESAMPLER_ERR_SUCCESS || taken != BLOCK) {
        fail("speexdsp leaves samples");
    }
    return written;
}

static size_t from_cells(void *state, Samples samples, void *places) {
    float levels[BLOCK];
    to_levels(samples.cells, levels);
    return resampled(state, (Samples){.levels = levels}, places);
}

const Side speexdsp[] = {
    {RESAMPLER_8, "speexdsp, quality 0", "8 taps, ten fixed phases, none blended", quality_0, resampled},
    {LINE_C, "speexdsp, quality 0", "the same behind a loop to floats; nothing cut", quality_0, from_cells},
    {RESAMPLER_16, "speexdsp, quality 1", "16 taps, ten fixed phases, none blended", quality_1, resampled},
    {RESAMPLER_16, "speexdsp, quality 3", "48 taps, ten fixed phases, none blended", quality_3, resampled},
    {DEPTH_3, "speexdsp, quality 3", "one FIR of 384 taps", by_8, resampled},
    {.name = NULL},
};
