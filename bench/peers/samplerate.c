// libsamplerate, by its callback-free interface for streams.
#include "peers.h"
#include <samplerate.h>

static void *opened(int kind) {
    int why;
    return src_new(kind, 1, &why);
}

static void *linear(void) {
    return opened(SRC_LINEAR);
}

static void *fastest(void) {
    return opened(SRC_SINC_FASTEST);
}

static size_t converted(void *state, const float *levels, float *places, double rate) {
    SRC_DATA data = {.data_in = levels, .data_out = places, .input_frames = BLOCK, .output_frames = PLACES};
    data.src_ratio = rate;
    if (src_process(state, &data) != 0 || data.input_frames_used != BLOCK) {
        fail("libsamplerate leaves samples");
    }
    return (size_t)data.output_frames_gen;
}

static size_t resampled(void *state, Samples samples, void *places) {
    return converted(state, samples.levels, places, 1 / STEP);
}

static size_t from_cells(void *state, Samples samples, void *places) {
    float levels[BLOCK];
    to_levels(samples.cells, levels);
    return converted(state, levels, places, 1 / STEP);
}

static size_t by_8(void *state, Samples samples, void *places) {
    return converted(state, samples.levels, places, 1.0 / 8);
}

#define FASTEST "libsamplerate, SRC_SINC_FASTEST"

const Side samplerate[] = {
    {RESAMPLER_8, FASTEST, "97 dB, passband 80 %; the ratio may glide", fastest, resampled},
    {LINE_C, FASTEST, "97 dB, behind a loop to floats; nothing cut", fastest, from_cells},
    {RESAMPLER_16, FASTEST, "97 dB, passband 80 %; the ratio may glide", fastest, resampled},
    {LINEAR, "libsamplerate, SRC_LINEAR", "has a state; the ratio may glide", linear, resampled},
    {DEPTH_3, FASTEST, "97 dB, passband 80 %, any ratio", fastest, by_8},
    {.name = NULL},
};
