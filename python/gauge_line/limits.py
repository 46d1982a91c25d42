"""The limits past which a call is refused, and the lengths of the arrays in a state.

Printed by host/bindings/run.sh from the constants of crates/.
"""

# Stages of a CIC converter, from 1.
MOST_STAGES = 8
# Neighbours of a nonrecursive decimator or a line.
MOST_NEIGHBOURS = 96
# Factor of a CIC converter or a FIR, from 1.
MOST_FACTOR = 4096
# Gain bits of a CIC decimator whose sums are scaled.
MOST_GAIN_BITS = 31
# Taps of the line's FIR.
MOST_TAPS = 128
# Samples, places or taps of a block.
MOST_BLOCK = 65536
# Taps of a half-band stage, from 1.
MOST_HALF_BAND_TAPS = 23
# Stages of a half-band cascade.
MOST_DEPTH = 5
# Phases of a resampler, at least.
LEAST_PHASES = 2
# Phases of a resampler, at most.
MOST_PHASES = 64
# Taps of a resampler's phase, from 1.
MOST_PHASE_TAPS = 16
# Taps of a resampler's prototype.
MOST_PROTOTYPE = 1024
# Step of a resampler in the line, at least: 1/64.
LEAST_STEP = 0.015625
# Step of a resampler in the line, at most.
MOST_STEP = 64.0
# Entries of a tap sheet.
MOST_ENTRIES = 32
# Top bit of a tap sheet's entry count: its empty entries come first.
SHEET_MARK = 32768
# Calls of a feeding plan.
MOST_CALLS = 4096
# Taps of one half of a linear-phase filter, from 1.
MOST_LINEAR_PHASE_TAPS = 23
# Places of a halving stage's delay.
HBF_DEC_DELAY = 96
# Places of a doubling stage's delay.
HBF_INT_DELAY = 48
# Places of a decimating cascade's delays.
HBF_DEC_DELAYS = 480
# Places of an interpolating cascade's delays.
HBF_INT_DELAYS = 240
# Places of a linear-phase filter's delay.
LINEAR_PHASE_DELAY = 46
# Taps of all stages of a cascade.
HBF_TABLE = 45
# Taps of all stages of a 98 dB cascade.
HBF_TABLE_98 = 29
