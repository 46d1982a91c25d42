// Races the archive with other libraries on like work, in one process and by turns, and prints what a sample costs.
#define _POSIX_C_SOURCE 199309L
#include "peers.h"
#include <stdio.h>
#include <stdlib.h>
#include <time.h>

enum {
    STREAM = 16 * BLOCK,
    MOST_SIDES = 12,
    // Places on the stack that runs are timed at, and the bytes of each: as in bench/src/race.rs.
    STACK_PLACES = 16,
    LEVEL = 208,
};

typedef struct {
    const char *title;
    // Outputs for each input, and whether a figure is of an output.
    double rate;
    int of_outputs;
} Heading;

static const Heading headings[RACES] = {
    [RESAMPLER_8] = {"Resampling, 0.9 inputs for each output, 8 taps a phase: ns per output", 1 / STEP, 1},
    [LINE_C] = {"The same from 16-bit samples of a cell to levels, line C: ns per input", 1 / STEP, 0},
    [RESAMPLER_16] = {"Resampling, 0.9 inputs for each output, 16 taps a phase: ns per output", 1 / STEP, 1},
    [LINEAR] = {"Resampling between neighbours, 0.9 inputs for each output: ns per output", 1 / STEP, 1},
    [DEPTH_3] = {"Decimation by 8, half-band: ns per input", 1.0 / 8, 0},
    [DEPTH_5] = {"Decimation by 32, half-band, 140 dB: ns per input", 1.0 / 32, 0},
    [DEPTH_5_98] = {"Decimation by 32, half-band, 98 dB: ns per input", 1.0 / 32, 0},
    [FIR] = {"FIR of 64 taps, decimation by 4: ns per input", 1.0 / FIR_FACTOR, 0},
    [CIC] = {"CIC decimation, N=3 r=16: ns per input", 1.0 / CIC_FACTOR, 0},
};

static const Side *const libraries[] = {
    ours,
#ifdef WITH_LIQUID
    liquid,
#endif
#ifdef WITH_SAMPLERATE
    samplerate,
#endif
#ifdef WITH_SOXR
    soxr,
#endif
#ifdef WITH_SPEEXDSP
    speexdsp,
#endif
};

typedef struct {
    const Side *side;
    void *state;
    // Outputs of all rounds, and the least nanoseconds for each output of one.
    double outputs, least;
} Runner;

static float levels[STREAM + BEHIND];
static int32_t cells[STREAM + BEHIND];
static int16_t fixed[STREAM + BEHIND];
static double places[PLACES];

void fail(const char *why) {
    fprintf(stderr, "peers: %s\n", why);
    exit(1);
}

void to_levels(const int32_t *from, float to[BLOCK]) {
    for (size_t i = 0; i < BLOCK; i++) {
        to[i] = (float)from[i] / 32768;
    }
}

// The samples of bench/src/samples.rs.
static void fill(void) {
    uint32_t state = 12345;
    for (size_t i = 0; i < STREAM + BEHIND; i++) {
        state = state * 1664525 + 1013904223;
        cells[i] = (int32_t)state >> 16;
        fixed[i] = (int16_t)((int32_t)state >> 17);
        levels[i] = (float)((int32_t)state >> 8) / 8388608;
    }
}

static double nanoseconds(void) {
    struct timespec now;
    clock_gettime(CLOCK_MONOTONIC, &now);
    return (double)now.tv_sec * 1e9 + (double)now.tv_nsec;
}

static size_t run(Runner *runner) {
    size_t written = 0;
    for (size_t at = 0; at < STREAM; at += BLOCK) {
        Samples samples = {levels + at, cells + at, fixed + at};
        written += runner->side->block(runner->state, samples, places);
    }
    return written;
}

// Times a round some levels down the stack, so that no side wins or loses by the place of its frames.
static void time_deeper(unsigned down, Runner *runner) {
    volatile char frame[LEVEL] = {0};
    if (down > 0) {
        time_deeper(down - 1, runner);
    } else {
        double start = nanoseconds();
        double outputs = (double)run(runner);
        double each = (nanoseconds() - start) / outputs;
        runner->outputs += outputs;
        runner->least = each < runner->least ? each : runner->least;
    }
    (void)frame[LEVEL - 1];
}

// The sides of a race, ours first.
static size_t gather(Race race, Runner runners[MOST_SIDES]) {
    size_t count = 0;
    for (size_t i = 0; i < sizeof libraries / sizeof *libraries; i++) {
        for (const Side *side = libraries[i]; side->name != NULL; side++) {
            if (side->race == race) {
                if (count == MOST_SIDES) {
                    fail("too many sides in a race");
                }
                runners[count++] = (Runner){.side = side, .state = side->open(), .least = 1e30};
            }
        }
    }
    return count;
}

// All sides make outputs at one rate, but for what a library holds back.
static void check(const Runner *runner, double rate, unsigned rounds) {
    double wanted = rate * STREAM * rounds;
    if (runner->outputs < 0.98 * wanted || runner->outputs > 1.02 * wanted) {
        fprintf(stderr, "%s: %.0f outputs of %.0f\n", runner->side->name, runner->outputs, wanted);
        fail("a side does other work");
    }
}

static void print(const Runner *runners, size_t count, const Heading *heading) {
    printf("\n%s\n\n%-44s%8s%12s  %s\n", heading->title, "", "ns", "ours/peer", "more or less than ours");
    for (size_t i = 0; i < count; i++) {
        double cost = runners[i].least * (heading->of_outputs ? 1 : heading->rate);
        printf("%-44s%8.2f", runners[i].side->name, cost);
        if (i == 0) {
            printf("%12s", "");
        } else {
            printf("%12.2f", runners[0].least / runners[i].least);
        }
        printf("  %s\n", runners[i].side->differs);
    }
}

static void race(Race which, unsigned rounds) {
    Runner runners[MOST_SIDES];
    size_t count = gather(which, runners);
    for (size_t i = 0; i < count; i++) {
        if (runners[i].state == NULL) {
            fail(runners[i].side->name);
        }
        run(&runners[i]); // what a filter holds back at its beginning, and what it allocates then
    }
    for (unsigned round = 0; round < rounds; round++) {
        for (size_t i = 0; i < count; i++) {
            time_deeper(round % STACK_PLACES, &runners[i]);
        }
    }
    for (size_t i = 0; i < count; i++) {
        check(&runners[i], headings[which].rate, rounds);
    }
    print(runners, count, &headings[which]);
}

int main(int argc, char **argv) {
    int rounds = argc > 1 ? atoi(argv[1]) : 100;
    if (argc > 2 || rounds < 1) {
        fprintf(stderr, "usage: peers [ROUNDS]\n");
        return 2;
    }
    fill();
    printf(
        "Like work in other libraries: the least of %d rounds by turns, one channel, blocks of %d samples\n", rounds,
        BLOCK
    );
    for (Race which = 0; which < RACES; which++) {
        race(which, (unsigned)rounds);
    }
    return 0;
}
