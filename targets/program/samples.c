#include "samples.h"

static uint64_t state;

void seed(uint64_t number) {
    state = number;
}

// SplitMix64.
static uint64_t next(void) {
    uint64_t z = state += 0x9e3779b97f4a7c15;
    z = (z ^ (z >> 30)) * 0xbf58476d1ce4e5b9;
    z = (z ^ (z >> 27)) * 0x94d049bb133111eb;
    return z ^ (z >> 31);
}

uint64_t below(uint64_t n) {
    return next() % n;
}

// The whole range, its ends more often than by chance.
int32_t sample_i32(void) {
    uint32_t bits = (uint32_t)next();
    return below(8) == 0 ? (bits & 1 ? INT32_MAX : INT32_MIN) : (int32_t)bits;
}

int16_t sample_i16(void) {
    uint16_t bits = (uint16_t)next();
    return below(8) == 0 ? (bits & 1 ? INT16_MAX : INT16_MIN) : (int16_t)bits;
}

float float_of(uint32_t bits) {
    union {
        uint32_t bits;
        float value;
    } both;
    both.bits = bits;
    return both.value;
}

float sample_f32(Stream stream) {
    static const uint32_t rare[8] = {
        // infinities, a NaN that is quiet and one that signals, the largest numbers, the least normal one, the least
        0x7f800000, 0xff800000, 0x7fc00000, 0xffa00001, 0x7f7fffff, 0xff7fffff, 0x00800000, 0x80000001};
    uint32_t bits = (uint32_t)next();
    if (stream == SUBNORMAL) {
        return float_of(below(8) == 0 ? bits & 0x80000000 : bits & 0x807fffff);
    }
    if (stream == WILD) {
        return float_of(below(32) == 0 ? rare[bits & 7] : bits);
    }
    // 24 bits, exactly.
    return (float)((int32_t)bits >> 8) * (1.0f / 8388608.0f);
}

void fill_i32(int32_t *samples, uint64_t count) {
    for (uint64_t i = 0; i < count; i++) {
        samples[i] = sample_i32();
    }
}

void fill_i16(int16_t *samples, uint64_t count) {
    for (uint64_t i = 0; i < count; i++) {
        samples[i] = sample_i16();
    }
}

void fill_f32(Stream stream, float *samples, uint64_t count) {
    for (uint64_t i = 0; i < count; i++) {
        samples[i] = sample_f32(stream);
    }
}
