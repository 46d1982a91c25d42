// The integer converters. A block of the plain interpolator is its samples one by one.
#include "beside.h"
#include "gauge_cic.h"
#include "plain.h"

static GaugeCicDecimator decimator;
static GaugeCicInterpolator interpolator;
static PlainCic plain;
static uint32_t r;

static uint32_t blocks(Outputs *to) {
    uint32_t made = 0;
    for (uint32_t i = 0; i < SAMPLES; i += BLOCK) {
        uint64_t taken, written;
        accepted(GaugeCicDecimator_process_block(
            &decimator, samples_i32 + i, BLOCK, to->sums + made, BLOCK + 1, &taken, &written
        ));
        made += (uint32_t)written;
    }
    return made;
}

static uint32_t blocks_plain(Outputs *to) {
    uint32_t made = 0;
    for (uint32_t i = 0; i < SAMPLES; i += BLOCK) {
        made += plain_cic_block(&plain, samples_i32 + i, BLOCK, to->sums + made);
    }
    return made;
}

static uint32_t samples(Outputs *to) {
    uint32_t made = 0;
    for (uint32_t i = 0; i < SAMPLES; i++) {
        uint64_t one;
        int32_t sum;
        accepted(GaugeCicDecimator_process_sample(&decimator, samples_i32[i], &one, &sum));
        if (one != 0) {
            to->sums[made++] = sum;
        }
    }
    return made;
}

static uint32_t samples_plain(Outputs *to) {
    uint32_t made = 0;
    for (uint32_t i = 0; i < SAMPLES; i++) {
        made += (uint32_t)plain_cic_sample(&plain, samples_i32[i], &to->sums[made]);
    }
    return made;
}

static uint32_t raised(Outputs *to) {
    uint32_t in_block = BLOCK / r, made = 0;
    for (uint32_t i = 0; i < SAMPLES / r; i += in_block) {
        uint64_t taken, written;
        accepted(GaugeCicInterpolator_process_block(
            &interpolator, samples_i32 + i, in_block, to->sums + made, BLOCK, &taken, &written
        ));
        made += (uint32_t)written;
    }
    return made;
}

static uint32_t raised_singly(Outputs *to) {
    uint32_t made = 0;
    for (uint32_t i = 0; i < SAMPLES / r; i++) {
        uint64_t written;
        accepted(GaugeCicInterpolator_process_sample(&interpolator, samples_i32[i], to->sums + made, r, &written));
        made += (uint32_t)written;
    }
    return made;
}

static uint32_t raised_plain(Outputs *to) {
    for (uint32_t i = 0; i < SAMPLES / r; i++) {
        plain_cic_raise(&plain, samples_i32[i], to->sums + i * r);
    }
    return SAMPLES;
}

static void open(uint32_t stages, uint32_t factor) {
    r = factor;
    accepted(GaugeCicDecimator_new(&decimator, stages, r));
    accepted(GaugeCicInterpolator_new(&interpolator, stages, r));
    plain_cic_open(&plain, stages, r);
}

void cic_converters(void) {
    open(1, 16);
    beside("`CicDecimator` N=1 r=16, blocks of 64", SAMPLES, blocks, blocks_plain);
    open(3, 1);
    beside("`CicDecimator` N=3 r=1, blocks of 64", SAMPLES, blocks, blocks_plain);
    open(8, 8);
    beside("`CicDecimator` N=8 r=8, blocks of 64", SAMPLES, blocks, blocks_plain);
    open(4, 16);
    beside("`CicDecimator` N=4 r=16, by sample", SAMPLES, samples, samples_plain);
    open(4, 16);
    beside("`CicInterpolator` N=4 r=16, 64 outputs", 0, raised, raised_plain);
    open(4, 16);
    beside("`CicInterpolator` N=4 r=16, by sample", 0, raised_singly, raised_plain);
}
