// What a sample costs beside plain C: a case runs the archive and plain/ over the same samples. Both are opened before,
// which is not counted.
#ifndef BESIDE_H
#define BESIDE_H

#include <stdint.h>

#define SAMPLES 4096
#define BLOCK 64
// Places of a block's span: a sample makes two outputs at most, and one more may be due.
#define SPAN (2 * BLOCK + 1)
#define MOST_OUTPUTS (2 * SAMPLES + SPAN)
#define TABLE 45

typedef union {
    int32_t sums[MOST_OUTPUTS];
    int16_t values[MOST_OUTPUTS];
    float levels[MOST_OUTPUTS];
} Outputs;

// Runs one side over the samples, and answers how many outputs it made.
typedef uint32_t (*Side)(Outputs *to);

// Runs both and prints a row: the name, instructions of ours and of plain C, and what they are for: so many samples, or
// all outputs where `per` is 0. Ends the program with a failure where outputs differ, or something was refused.
void beside(const char *name, uint32_t per, Side ours, Side plain);

// Takes the answer of a call.
void accepted(uint64_t refused);

// Samples of 16 bits, of 15 bits, and in (-1, 1).
extern int32_t samples_i32[SAMPLES];
extern int16_t samples_i16[SAMPLES];
extern float samples_f32[SAMPLES];

extern int16_t fir_taps[64];
extern float prototype[1024];
// The taps of the half-band stages: 23, 10, 5, 4 and 3.
extern float table[TABLE];

void lines(void);
void cic_converters(void);
void q15_converters(void);
void half_band_converters(void);
void resamplers(void);

#endif
