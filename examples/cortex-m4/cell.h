// A pressure cell, simulated: what its ADC would give next.
#ifndef CELL_H
#define CELL_H

#include <stdint.h>

// 12 bits: a level that rises, with a ripple on it.
void cell_samples(uint16_t *places, uint32_t count);

#endif
