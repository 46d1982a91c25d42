// What a sample costs on the board: a program of cost.c and one file of cost/, which has `costs`.
#ifndef COST_H
#define COST_H

#include <stdint.h>

// Samples of each feed.
#define SAMPLES 4096

// Prints a row for each way of feeding.
void costs(void);

// Feeds twice, and prints what a sample of the second feed took: the delays are then full. Ends the program where a
// feed answers a refusal.
void cost_row(const char *name, uint64_t (*feed)(void));

// SAMPLES of them, as 32 bits, 16 bits and floats, all within 16 bits.
extern int32_t samples_i32[SAMPLES];
extern int16_t samples_i16[SAMPLES];
extern float samples_f32[SAMPLES];

#endif
