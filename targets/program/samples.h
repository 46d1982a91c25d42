// Samples from a seed, the same on every machine.
#ifndef SAMPLES_H
#define SAMPLES_H

#include <stdint.h>

// Floats of a stream: in (-1, 1); below the least normal number, zeros of both signs among them; any bits, so that
// sums overflow, with infinities and NaNs.
typedef enum { ORDINARY, SUBNORMAL, WILD, STREAMS } Stream;

void seed(uint64_t number);

// A number below n, which is not 0.
uint64_t below(uint64_t n);

int32_t sample_i32(void);
int16_t sample_i16(void);
float sample_f32(Stream stream);

void fill_i32(int32_t *samples, uint64_t count);
void fill_i16(int16_t *samples, uint64_t count);
void fill_f32(Stream stream, float *samples, uint64_t count);

// The float of these bits.
float float_of(uint32_t bits);

#endif
