// The limits past which a call is refused, and the lengths of the arrays in a state.
//
// Printed by host/bindings/run.sh from the constants of crates/.
#ifndef GAUGE_LIMITS_H
#define GAUGE_LIMITS_H

// Stages of a CIC converter, from 1.
#define GAUGE_MOST_STAGES 8
// Neighbours of a nonrecursive decimator or a line.
#define GAUGE_MOST_NEIGHBOURS 96
// Factor of a CIC converter or a FIR, from 1.
#define GAUGE_MOST_FACTOR 4096
// Gain bits of a CIC decimator whose sums are scaled.
#define GAUGE_MOST_GAIN_BITS 31
// Taps of the line's FIR.
#define GAUGE_MOST_TAPS 128
// Samples, places or taps of a block.
#define GAUGE_MOST_BLOCK 65536
// Taps of a half-band stage, from 1.
#define GAUGE_MOST_HALF_BAND_TAPS 23
// Stages of a half-band cascade.
#define GAUGE_MOST_DEPTH 5
// Phases of a resampler, at least.
#define GAUGE_LEAST_PHASES 2
// Phases of a resampler, at most.
#define GAUGE_MOST_PHASES 64
// Taps of a resampler's phase, from 1.
#define GAUGE_MOST_PHASE_TAPS 16
// Taps of a resampler's prototype.
#define GAUGE_MOST_PROTOTYPE 1024
// Step of a resampler in the line, at least: 1/64.
#define GAUGE_LEAST_STEP 0.015625f
// Step of a resampler in the line, at most.
#define GAUGE_MOST_STEP 64.0f
// Entries of a tap sheet.
#define GAUGE_MOST_ENTRIES 32
// Top bit of a tap sheet's entry count: its empty entries come first.
#define GAUGE_SHEET_MARK 32768
// Calls of a feeding plan.
#define GAUGE_MOST_CALLS 4096
// Taps of one half of a linear-phase filter, from 1.
#define GAUGE_MOST_LINEAR_PHASE_TAPS 23
// Places of a halving stage's delay.
#define GAUGE_HBF_DEC_DELAY 96
// Places of a doubling stage's delay.
#define GAUGE_HBF_INT_DELAY 48
// Places of a decimating cascade's delays.
#define GAUGE_HBF_DEC_DELAYS 480
// Places of an interpolating cascade's delays.
#define GAUGE_HBF_INT_DELAYS 240
// Places of a linear-phase filter's delay.
#define GAUGE_LINEAR_PHASE_DELAY 46
// Taps of all stages of a cascade.
#define GAUGE_HBF_TABLE 45
// Taps of all stages of a 98 dB cascade.
#define GAUGE_HBF_TABLE_98 29

#endif
