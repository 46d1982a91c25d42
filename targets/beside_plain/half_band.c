// The half-band converters.
#include "beside.h"
#include "gauge_half_band.h"
#include "plain.h"

static GaugeHbfDec dec;
static GaugeHbfInt raising;
static GaugeHbfDecCascade cascade;
static GaugeHbfIntCascade raising_cascade;
static GaugeHbfStream stream;
static PlainHbf plain;
static PlainStages plain_stages;
static uint32_t depth;

static uint32_t blocks(Outputs *to) {
    uint32_t made = 0;
    for (uint32_t i = 0; i < SAMPLES; i += BLOCK) {
        uint64_t written;
        accepted(GaugeHbfDec_process(&dec, samples_f32 + i, BLOCK, to->levels + made, BLOCK, &written));
        made += (uint32_t)written;
    }
    return made;
}

static uint32_t pairs(Outputs *to) {
    for (uint32_t i = 0; i < SAMPLES / 2; i++) {
        accepted(GaugeHbfDec_process_pair(&dec, samples_f32[2 * i], samples_f32[2 * i + 1], &to->levels[i]));
    }
    return SAMPLES / 2;
}

static uint32_t pairs_plain(Outputs *to) {
    for (uint32_t i = 0; i < SAMPLES / 2; i++) {
        to->levels[i] = plain_hbf_pair(&plain, samples_f32[2 * i], samples_f32[2 * i + 1]);
    }
    return SAMPLES / 2;
}

static uint32_t raised(Outputs *to) {
    uint32_t made = 0;
    for (uint32_t i = 0; i < SAMPLES / 2; i += BLOCK / 2) {
        uint64_t written;
        accepted(GaugeHbfInt_process(&raising, samples_f32 + i, BLOCK / 2, to->levels + made, BLOCK, &written));
        made += (uint32_t)written;
    }
    return made;
}

static uint32_t raised_singly(Outputs *to) {
    for (uint32_t i = 0; i < SAMPLES / 2; i++) {
        float *both = to->levels + 2 * i;
        accepted(GaugeHbfInt_process_sample(&raising, samples_f32[i], &both[0], &both[1]));
    }
    return SAMPLES;
}

static uint32_t raised_plain(Outputs *to) {
    for (uint32_t i = 0; i < SAMPLES / 2; i++) {
        plain_hbf_raise(&plain, samples_f32[i], to->levels + 2 * i);
    }
    return SAMPLES;
}

static uint32_t cascade_blocks(Outputs *to) {
    uint32_t made = 0;
    for (uint32_t i = 0; i < SAMPLES; i += BLOCK) {
        uint64_t written;
        accepted(GaugeHbfDecCascade_process(&cascade, samples_f32 + i, BLOCK, to->levels + made, BLOCK, &written));
        made += (uint32_t)written;
    }
    return made;
}

static uint32_t stream_samples(Outputs *to) {
    uint32_t made = 0;
    for (uint32_t i = 0; i < SAMPLES; i++) {
        uint64_t one;
        float value;
        accepted(GaugeHbfStream_process_sample(&stream, samples_f32[i], &one, &value));
        if (one != 0) {
            to->levels[made++] = value;
        }
    }
    return made;
}

static uint32_t stages_plain(Outputs *to) {
    uint32_t made = 0;
    for (uint32_t i = 0; i < SAMPLES; i++) {
        made += (uint32_t)plain_stages_sample(&plain_stages, samples_f32[i], &to->levels[made]);
    }
    return made;
}

static uint32_t cascade_raised(Outputs *to) {
    uint32_t made = 0, on = BLOCK >> depth;
    for (uint32_t i = 0; i < (uint32_t)SAMPLES >> depth; i += on) {
        uint64_t written;
        accepted(GaugeHbfIntCascade_process(&raising_cascade, samples_f32 + i, on, to->levels + made, BLOCK, &written));
        made += (uint32_t)written;
    }
    return made;
}

static uint32_t cascade_raised_plain(Outputs *to) {
    for (uint32_t i = 0; i < (uint32_t)SAMPLES >> depth; i++) {
        plain_stages_raise(&plain_stages, samples_f32[i], to->levels + (i << depth));
    }
    return SAMPLES;
}

static void open(const float *taps, uint32_t m) {
    accepted(GaugeHbfDec_new(&dec, taps, m));
    accepted(GaugeHbfInt_new(&raising, taps, m));
    plain_hbf_open(&plain, taps, m);
}

static void open_stages(uint32_t stages) {
    depth = stages;
    accepted(GaugeHbfDecCascade_new(&cascade, depth));
    accepted(GaugeHbfIntCascade_new(&raising_cascade, depth));
    accepted(GaugeHbfStream_new(&stream, depth));
    plain_stages_open(&plain_stages, table, depth);
}

static void stages(void) {
    open_stages(5);
    beside("`HbfDecCascade` depth 5, blocks of 64", SAMPLES, cascade_blocks, stages_plain);
    open_stages(5);
    beside("`HbfStream` depth 5, by sample", SAMPLES, stream_samples, stages_plain);
    open_stages(1);
    beside("`HbfStream` depth 1, by sample", SAMPLES, stream_samples, stages_plain);
    open_stages(5);
    plain_stages_open_raising(&plain_stages, table, depth);
    beside("`HbfIntCascade` depth 5, 64 outputs", 0, cascade_raised, cascade_raised_plain);
}

void half_band_converters(void) {
    open(table, 23);
    beside("`HbfDec` M=23, blocks of 64", SAMPLES, blocks, pairs_plain);
    open(table + 42, 3);
    beside("`HbfDec` M=3, blocks of 64", SAMPLES, blocks, pairs_plain);
    open(table, 23);
    beside("`HbfDec` M=23, by pair", SAMPLES, pairs, pairs_plain);
    open(table, 23);
    beside("`HbfInt` M=23, 64 outputs", 0, raised, raised_plain);
    open(table, 23);
    beside("`HbfInt` M=23, by sample", 0, raised_singly, raised_plain);
    stages();
}
