// Why a call is turned back: the numbers, their names, and the limits that they speak of.
//
// Every function that can be refused answers a number: 0 where it was not, else that of the first refusal that applies.
// A refused call writes no output and leaves its state as it was; the counts and values that it answers are 0. A
// refused opening makes the state all zeros.
#ifndef GAUGE_REFUSAL_H
#define GAUGE_REFUSAL_H

#include "gauge_limits.h"
#include <stdint.h>

// printed: refusals c
enum GaugeRefusal {
    // The call did what it was asked to.
    GAUGE_NOT_REFUSED = 0,
    // CIC stages not 1 to GAUGE_MOST_STAGES.
    GAUGE_REFUSED_STAGES = 1,
    // CIC factor not 1 to GAUGE_MOST_FACTOR.
    GAUGE_REFUSED_FACTOR = 2,
    // Scaled sums: gain bits over GAUGE_MOST_GAIN_BITS.
    GAUGE_REFUSED_GAIN_BITS = 3,
    // CIC interpolator: span shorter than the factor.
    GAUGE_REFUSED_SPAN = 4,
    // FIR factor not 1 to GAUGE_MOST_FACTOR.
    GAUGE_REFUSED_FIR_FACTOR = 5,
    // FIR taps: none, or over GAUGE_MOST_BLOCK; over GAUGE_MOST_TAPS one sample at a time; in the line only over
    // GAUGE_MOST_TAPS.
    GAUGE_REFUSED_TAPS = 6,
    // Samples of a block: none, or samples or span over GAUGE_MOST_BLOCK.
    GAUGE_REFUSED_SAMPLES = 7,
    // FIR taps not a multiple of the interpolation factor.
    GAUGE_REFUSED_TAPS_MULTIPLE = 8,
    // Linear resampling: ratio not above zero or not finite.
    GAUGE_REFUSED_RATIO = 9,
    // Half-band taps not 1 to GAUGE_MOST_HALF_BAND_TAPS.
    GAUGE_REFUSED_HALF_BAND_TAPS = 10,
    // Depth over GAUGE_MOST_DEPTH, or a cascade of 0; in the line only over GAUGE_MOST_DEPTH.
    GAUGE_REFUSED_DEPTH = 11,
    // Phases not GAUGE_LEAST_PHASES to GAUGE_MOST_PHASES, or taps of a phase not 1 to GAUGE_MOST_PHASE_TAPS.
    GAUGE_REFUSED_PHASES = 12,
    // Prototype not phases times taps long.
    GAUGE_REFUSED_PROTOTYPE = 13,
    // Step not finite or not above zero; in the line not GAUGE_LEAST_STEP to GAUGE_MOST_STEP.
    GAUGE_REFUSED_STEP = 14,
    // Settings in a state that its opening refuses, or a counter out of range: the state was not opened, was refused at
    // its opening, or was damaged.
    GAUGE_REFUSED_STATE = 15,
    // Tap sheet: over GAUGE_MOST_ENTRIES entries, an end inside the directory, or a reader's count that is not its
    // sheet's.
    GAUGE_REFUSED_DIRECTORY = 16,
    // Tap sheet: a pair unsorted, overlapping or outside the data; written: lengths that do not add up to the bytes, a
    // sheet over 2^32 - 1 bytes, or a span too short for it.
    GAUGE_REFUSED_ENTRIES = 17,
    // Tap sheet: entry number not below the count.
    GAUGE_REFUSED_ENTRY_NUMBER = 18,
    // Linear-phase taps not 1 to GAUGE_MOST_LINEAR_PHASE_TAPS.
    GAUGE_REFUSED_PHASE_TAPS = 19,
    // Linear-phase filter: source and span of a block not of one length.
    GAUGE_REFUSED_LENGTHS = 20,
    // Parked line: another count of entries than it has, or an entry not as long as its settings make it.
    GAUGE_REFUSED_PARKED = 21,
    // Feeding plan: the two lists and the two of results not of one length, over GAUGE_MOST_CALLS calls, or a length
    // over GAUGE_MOST_BLOCK.
    GAUGE_REFUSED_PLAN = 22,
    // Thinning without integrators: factor not a power of two.
    GAUGE_REFUSED_POWER_OF_TWO = 23
};

// The name of a number that a call answered; "unknown" for a number that none answers.
static inline const char *gauge_refusal_name(uint64_t number) {
    switch (number) {
    case GAUGE_NOT_REFUSED:
        return "not refused";
    case GAUGE_REFUSED_STAGES:
        return "Stages";
    case GAUGE_REFUSED_FACTOR:
        return "Factor";
    case GAUGE_REFUSED_GAIN_BITS:
        return "GainBits";
    case GAUGE_REFUSED_SPAN:
        return "Span";
    case GAUGE_REFUSED_FIR_FACTOR:
        return "FirFactor";
    case GAUGE_REFUSED_TAPS:
        return "Taps";
    case GAUGE_REFUSED_SAMPLES:
        return "Samples";
    case GAUGE_REFUSED_TAPS_MULTIPLE:
        return "TapsMultiple";
    case GAUGE_REFUSED_RATIO:
        return "Ratio";
    case GAUGE_REFUSED_HALF_BAND_TAPS:
        return "HalfBandTaps";
    case GAUGE_REFUSED_DEPTH:
        return "Depth";
    case GAUGE_REFUSED_PHASES:
        return "Phases";
    case GAUGE_REFUSED_PROTOTYPE:
        return "Prototype";
    case GAUGE_REFUSED_STEP:
        return "Step";
    case GAUGE_REFUSED_STATE:
        return "State";
    case GAUGE_REFUSED_DIRECTORY:
        return "Directory";
    case GAUGE_REFUSED_ENTRIES:
        return "Entries";
    case GAUGE_REFUSED_ENTRY_NUMBER:
        return "EntryNumber";
    case GAUGE_REFUSED_PHASE_TAPS:
        return "PhaseTaps";
    case GAUGE_REFUSED_LENGTHS:
        return "Lengths";
    case GAUGE_REFUSED_PARKED:
        return "Parked";
    case GAUGE_REFUSED_PLAN:
        return "Plan";
    case GAUGE_REFUSED_POWER_OF_TWO:
        return "PowerOfTwo";
    default:
        return "unknown";
    }
}
// printed until here

#endif
