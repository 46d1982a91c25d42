// What a library brings to the races: its sides, each with a state that goes on from block to block.
#ifndef PEERS_H
#define PEERS_H

#include <stddef.h>
#include <stdint.h>

enum {
    // Samples of a block, as of table 1 of the benchmark.
    BLOCK = 4096,
    // Samples that a FIR without a state reads behind its block.
    BEHIND = 64,
    // Places for what a block makes: a library may hand over what it has held back.
    PLACES = 4 * BLOCK,
};

// Input samples for each output of the resamplers.
#define STEP 0.9
// The FIRs' and the CIC decimator's.
#define FIR_TAPS 64
#define FIR_FACTOR 4
#define CIC_STAGES 3
#define CIC_FACTOR 16

typedef enum {
    RESAMPLER_8,
    LINE_C,
    RESAMPLER_16,
    LINEAR,
    DEPTH_3,
    DEPTH_5,
    DEPTH_5_98,
    FIR,
    CIC,
    RACES,
} Race;

// The same samples as each side wants them.
typedef struct {
    const float *levels;
    const int32_t *cells;
    const int16_t *fixed;
} Samples;

typedef struct {
    Race race;
    const char *name;
    // What it does more or less than ours.
    const char *differs;
    // A fresh state, or NULL.
    void *(*open)(void);
    // Takes a block of samples and says how many outputs it wrote to the front of PLACES places.
    size_t (*block)(void *state, Samples samples, void *places);
} Side;

// Each list ends with a side without a name.
extern const Side ours[], liquid[], samplerate[], soxr[], speexdsp[];

// Ends the program: a side does not do what it is raced for.
void fail(const char *why);

// Samples of a cell as floats, as who feeds another library has to make them.
void to_levels(const int32_t *cells, float levels[BLOCK]);

#endif
