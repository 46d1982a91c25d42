// The converters of 01 and the line in plain C, as an engineer would write them for a Cortex-M: counters of 32 bits, no
// checks, delays in rings, taps and prototypes lent. They make the same outputs, by bits; beside_plain/ races them.
#ifndef PLAIN_H
#define PLAIN_H

#include <stdint.h>

#define PLAIN_STAGES 8
#define PLAIN_DEPTH 5

typedef struct {
    uint32_t stages, r, counter;
    uint32_t integrators[PLAIN_STAGES], combs[PLAIN_STAGES];
} PlainCic;

void plain_cic_open(PlainCic *s, uint32_t stages, uint32_t r);
// 1 where the sample made a sum.
int plain_cic_sample(PlainCic *s, int32_t x, int32_t *sum);
uint32_t plain_cic_block(PlainCic *s, const int32_t *src, uint32_t n, int32_t *dst);
// r outputs of a sample, of an interpolator with the same state.
void plain_cic_raise(PlainCic *s, int32_t x, int32_t *dst);

// Each sample is written twice, as many places apart as there are taps, so that every window is in a row.
typedef struct {
    const int16_t *taps;
    uint32_t tap_count, factor, wait, at;
    int16_t delay[256];
} PlainFir;

void plain_fir_open(PlainFir *s, const int16_t *taps, uint32_t tap_count, uint32_t factor);
int plain_fir_sample(PlainFir *s, int16_t x, int16_t *value);
int16_t plain_cut(int32_t sum);
uint32_t plain_decimate_q15(
    const int16_t *src, uint32_t n, const int16_t *taps, uint32_t tap_count, uint32_t factor, int16_t *dst
);
uint32_t plain_interpolate_q15(
    const int16_t *src, uint32_t n, const int16_t *taps, uint32_t tap_count, uint32_t factor, int16_t *dst
);
void plain_linear_q15(const int16_t *src, uint32_t n, int16_t *dst, uint32_t places, uint32_t ratio);
void plain_linear_f32(const float *src, uint32_t n, float *dst, uint32_t places, float ratio);

// First samples of pairs on a ring of 2M places, written twice; second ones on a ring of M.
typedef struct {
    const float *taps;
    uint32_t m, at, odd_at;
    float even[92], odd[23];
} PlainHbf;

void plain_hbf_open(PlainHbf *s, const float *taps, uint32_t m);
float plain_hbf_pair(PlainHbf *s, float a, float b);
// A sample's two outputs, of an interpolator, which leaves `odd` alone.
void plain_hbf_raise(PlainHbf *s, float x, float *dst);

typedef struct {
    uint32_t depth;
    uint32_t has[PLAIN_DEPTH];
    float held[PLAIN_DEPTH];
    PlainHbf stages[PLAIN_DEPTH];
} PlainStages;

// By the table of taps that gauge_raw_hbf_tap_table fills: its stages are 23, 10, 5, 4 and 3 taps.
void plain_stages_open(PlainStages *s, const float *table, uint32_t depth);
int plain_stages_sample(PlainStages *s, float x, float *value);
// The same stages turned round: 2^depth outputs of a sample.
void plain_stages_open_raising(PlainStages *s, const float *table, uint32_t depth);
void plain_stages_raise(PlainStages *s, float x, float *dst);

typedef struct {
    const float *prototype;
    uint32_t phases, taps, at;
    float mu, step;
    float delay[32];
} PlainResamp;

void plain_resamp_open(PlainResamp *s, uint32_t phases, uint32_t taps, const float *prototype, float step);
uint32_t plain_resamp_push(PlainResamp *s, float x, float *dst);

typedef struct {
    uint32_t bits;
    PlainCic cic;
    PlainFir fir;
    PlainStages stages;
    PlainResamp resamp;
} PlainLine;

// The outputs of n samples; there is a place for each.
uint32_t plain_line_feed(PlainLine *l, const int32_t *src, uint32_t n, float *dst);

#endif
