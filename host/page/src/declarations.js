// The module's functions as they are exported, its states, the limits and the refusals. A slice is a pointer and a
// length; a state is its fields, each lent: what its opening writes.
//
// Printed by host/bindings/run.sh from what crates/ declares.

export const LIMITS = {
    // Stages of a CIC converter, from 1.
    MOST_STAGES: 8,
    // Neighbours of a nonrecursive decimator or a line.
    MOST_NEIGHBOURS: 96,
    // Factor of a CIC converter or a FIR, from 1.
    MOST_FACTOR: 4096,
    // Gain bits of a CIC decimator whose sums are scaled.
    MOST_GAIN_BITS: 31,
    // Taps of the line's FIR.
    MOST_TAPS: 128,
    // Samples, places or taps of a block.
    MOST_BLOCK: 65536,
    // Taps of a half-band stage, from 1.
    MOST_HALF_BAND_TAPS: 23,
    // Stages of a half-band cascade.
    MOST_DEPTH: 5,
    // Phases of a resampler, at least.
    LEAST_PHASES: 2,
    // Phases of a resampler, at most.
    MOST_PHASES: 64,
    // Taps of a resampler's phase, from 1.
    MOST_PHASE_TAPS: 16,
    // Taps of a resampler's prototype.
    MOST_PROTOTYPE: 1024,
    // Step of a resampler in the line, at least: 1/64.
    LEAST_STEP: 0.015625,
    // Step of a resampler in the line, at most.
    MOST_STEP: 64.0,
    // Entries of a tap sheet.
    MOST_ENTRIES: 32,
    // Top bit of a tap sheet's entry count: its empty entries come first.
    SHEET_MARK: 32768,
    // Calls of a feeding plan.
    MOST_CALLS: 4096,
    // Taps of one half of a linear-phase filter, from 1.
    MOST_LINEAR_PHASE_TAPS: 23,
    // Places of a halving stage's delay.
    HBF_DEC_DELAY: 96,
    // Places of a doubling stage's delay.
    HBF_INT_DELAY: 48,
    // Places of a decimating cascade's delays.
    HBF_DEC_DELAYS: 480,
    // Places of an interpolating cascade's delays.
    HBF_INT_DELAYS: 240,
    // Places of a linear-phase filter's delay.
    LINEAR_PHASE_DELAY: 46,
    // Taps of all stages of a cascade.
    HBF_TABLE: 45,
    // Taps of all stages of a 98 dB cascade.
    HBF_TABLE_98: 29,
};

export const FUNCTIONS = {
    gauge_raw_cic_decimator_new: [
        'wanted_stages: u64', 'wanted_r: u64', 'stages: &mut u64', 'r: &mut u64',
        'integrators: &mut [i32; MOST_STAGES]', 'combs: &mut [i32; MOST_STAGES]', 'sample_counter: &mut u64',
    ],
    gauge_raw_cic_decimator_gain: [
        'stages: u64', 'r: u64', 'integrators: &[i32; MOST_STAGES]', 'combs: &[i32; MOST_STAGES]',
        'sample_counter: u64', 'gain: &mut u64',
    ],
    gauge_raw_cic_decimator_gain_bits: [
        'stages: u64', 'r: u64', 'integrators: &[i32; MOST_STAGES]', 'combs: &[i32; MOST_STAGES]',
        'sample_counter: u64', 'bits: &mut u32',
    ],
    gauge_raw_cic_decimator_exact_range: [
        'stages: u64', 'r: u64', 'integrators: &[i32; MOST_STAGES]', 'combs: &[i32; MOST_STAGES]',
        'sample_counter: u64', 'least: &mut i32', 'greatest: &mut i32',
    ],
    gauge_raw_cic_decimator_process_sample: [
        'stages: &mut u64', 'r: &mut u64', 'integrators: &mut [i32; MOST_STAGES]', 'combs: &mut [i32; MOST_STAGES]',
        'sample_counter: &mut u64', 'input: i32', 'made: &mut u64', 'sum: &mut i32',
    ],
    gauge_raw_cic_decimator_process_sample_scaled: [
        'stages: &mut u64', 'r: &mut u64', 'integrators: &mut [i32; MOST_STAGES]', 'combs: &mut [i32; MOST_STAGES]',
        'sample_counter: &mut u64', 'input: i32', 'made: &mut u64', 'sum: &mut i32',
    ],
    gauge_raw_cic_decimator_process_block: [
        'stages: &mut u64', 'r: &mut u64', 'integrators: &mut [i32; MOST_STAGES]', 'combs: &mut [i32; MOST_STAGES]',
        'sample_counter: &mut u64', 'src: &[i32]', 'dst: &mut [i32]', 'taken: &mut u64', 'written: &mut u64',
    ],
    gauge_raw_cic_interpolator_new: [
        'wanted_stages: u64', 'wanted_r: u64', 'stages: &mut u64', 'r: &mut u64', 'combs: &mut [i32; MOST_STAGES]',
        'integrators: &mut [i32; MOST_STAGES]',
    ],
    gauge_raw_cic_interpolator_gain: [
        'stages: u64', 'r: u64', 'combs: &[i32; MOST_STAGES]', 'integrators: &[i32; MOST_STAGES]', 'gain: &mut u64',
    ],
    gauge_raw_cic_interpolator_gain_bits: [
        'stages: u64', 'r: u64', 'combs: &[i32; MOST_STAGES]', 'integrators: &[i32; MOST_STAGES]', 'bits: &mut u32',
    ],
    gauge_raw_cic_interpolator_process_sample: [
        'stages: &mut u64', 'r: &mut u64', 'combs: &mut [i32; MOST_STAGES]', 'integrators: &mut [i32; MOST_STAGES]',
        'input: i32', 'out_buf: &mut [i32]', 'written: &mut u64',
    ],
    gauge_raw_cic_interpolator_process_block: [
        'stages: &mut u64', 'r: &mut u64', 'combs: &mut [i32; MOST_STAGES]', 'integrators: &mut [i32; MOST_STAGES]',
        'src: &[i32]', 'dst: &mut [i32]', 'taken: &mut u64', 'written: &mut u64',
    ],
    gauge_raw_plan_3: [
        'stages: u64', 'r: u64', 'factor: u64', 'depth: u64', 'phases: u64', 'phase_taps: u64', 'straight: u64',
        'step: f32', 'thinning: u64', 'taps: &[i16]', 'prototype: &[f32]', 'pieces: &[u64]', 'spans: &[u64]',
        'taken: &mut [u64]', 'written: &mut [u64]',
    ],
    gauge_raw_fir_decimator_new_2: [
        'wanted_taps: &[i16]', 'wanted_factor: u64', 'taps: &mut [i16; MOST_TAPS]', 'tap_count: &mut u64',
        'factor: &mut u64', 'delay: &mut [i16; MOST_TAPS]', 'wait: &mut u64',
    ],
    gauge_raw_fir_decimator_reset: [
        'taps: &mut [i16; MOST_TAPS]', 'tap_count: &mut u64', 'factor: &mut u64', 'delay: &mut [i16; MOST_TAPS]',
        'wait: &mut u64',
    ],
    gauge_raw_fir_decimator_process_sample: [
        'taps: &mut [i16; MOST_TAPS]', 'tap_count: &mut u64', 'factor: &mut u64', 'delay: &mut [i16; MOST_TAPS]',
        'wait: &mut u64', 'sample: i16', 'made: &mut u64', 'value: &mut i16', 'cut: &mut u64',
    ],
    gauge_raw_line_open_3: [
        'wanted_stages: u64', 'wanted_r: u64', 'wanted_factor: u64', 'wanted_depth: u64', 'wanted_phases: u64',
        'wanted_phase_taps: u64', 'wanted_straight: u64', 'wanted_step: f32', 'wanted_thinning: u64',
        'wanted_taps: &[i16]', 'wanted_prototype: &[f32]', 'stages: &mut u64', 'r: &mut u64',
        'integrators: &mut [i32; MOST_STAGES]', 'combs: &mut [i32; MOST_STAGES]', 'sample_counter: &mut u64',
        'taps: &mut [i16; MOST_TAPS]', 'tap_count: &mut u64', 'factor: &mut u64', 'fir_delay: &mut [i16; MOST_TAPS]',
        'wait: &mut u64', 'depth: &mut u64', 'delays: &mut [f32; HBF_DEC_DELAYS]', 'held: &mut [f32; MOST_DEPTH]',
        'counts: &mut [u64; MOST_DEPTH]', 'phases: &mut u64', 'phase_taps: &mut u64', 'straight: &mut u64',
        'mu: &mut f32', 'step: &mut f32', 'delay: &mut [f32; MOST_PHASE_TAPS]',
        'prototype: &mut [f32; MOST_PROTOTYPE]', 'cuts: &mut u32', 'thinning: &mut u64',
        'neighbours: &mut [i32; MOST_NEIGHBOURS]',
    ],
    gauge_raw_line_reset: [
        'stages: &mut u64', 'r: &mut u64', 'integrators: &mut [i32; MOST_STAGES]', 'combs: &mut [i32; MOST_STAGES]',
        'sample_counter: &mut u64', 'taps: &mut [i16; MOST_TAPS]', 'tap_count: &mut u64', 'factor: &mut u64',
        'fir_delay: &mut [i16; MOST_TAPS]', 'wait: &mut u64', 'depth: &mut u64', 'delays: &mut [f32; HBF_DEC_DELAYS]',
        'held: &mut [f32; MOST_DEPTH]', 'counts: &mut [u64; MOST_DEPTH]', 'phases: &mut u64', 'phase_taps: &mut u64',
        'straight: &mut u64', 'mu: &mut f32', 'step: &mut f32', 'delay: &mut [f32; MOST_PHASE_TAPS]',
        'prototype: &mut [f32; MOST_PROTOTYPE]', 'cuts: &mut u32', 'thinning: &mut u64',
        'neighbours: &mut [i32; MOST_NEIGHBOURS]',
    ],
    gauge_raw_line_step: [
        'stages: &mut u64', 'r: &mut u64', 'integrators: &mut [i32; MOST_STAGES]', 'combs: &mut [i32; MOST_STAGES]',
        'sample_counter: &mut u64', 'taps: &mut [i16; MOST_TAPS]', 'tap_count: &mut u64', 'factor: &mut u64',
        'fir_delay: &mut [i16; MOST_TAPS]', 'wait: &mut u64', 'depth: &mut u64', 'delays: &mut [f32; HBF_DEC_DELAYS]',
        'held: &mut [f32; MOST_DEPTH]', 'counts: &mut [u64; MOST_DEPTH]', 'phases: &mut u64', 'phase_taps: &mut u64',
        'straight: &mut u64', 'mu: &mut f32', 'step: &mut f32', 'delay: &mut [f32; MOST_PHASE_TAPS]',
        'prototype: &mut [f32; MOST_PROTOTYPE]', 'cuts: &mut u32', 'thinning: &mut u64',
        'neighbours: &mut [i32; MOST_NEIGHBOURS]', 'samples: &[i32]', 'at: u64', 'places: u64', 'taken: &mut u64',
        'written: &mut u64', 'value: &mut f32',
    ],
    gauge_raw_line_feed: [
        'stages: &mut u64', 'r: &mut u64', 'integrators: &mut [i32; MOST_STAGES]', 'combs: &mut [i32; MOST_STAGES]',
        'sample_counter: &mut u64', 'taps: &mut [i16; MOST_TAPS]', 'tap_count: &mut u64', 'factor: &mut u64',
        'fir_delay: &mut [i16; MOST_TAPS]', 'wait: &mut u64', 'depth: &mut u64', 'delays: &mut [f32; HBF_DEC_DELAYS]',
        'held: &mut [f32; MOST_DEPTH]', 'counts: &mut [u64; MOST_DEPTH]', 'phases: &mut u64', 'phase_taps: &mut u64',
        'straight: &mut u64', 'mu: &mut f32', 'step: &mut f32', 'delay: &mut [f32; MOST_PHASE_TAPS]',
        'prototype: &mut [f32; MOST_PROTOTYPE]', 'cuts: &mut u32', 'thinning: &mut u64',
        'neighbours: &mut [i32; MOST_NEIGHBOURS]', 'samples: &[i32]', 'out: &mut [f32]', 'taken: &mut u64',
        'written: &mut u64',
    ],
    gauge_raw_hbf_dec_new: [
        'taps: &[f32]', 'm: &mut u64', 'coeffs: &mut [f32; MOST_HALF_BAND_TAPS]', 'delay: &mut [f32; HBF_DEC_DELAY]',
    ],
    gauge_raw_hbf_dec_reset: [
        'm: &mut u64', 'coeffs: &mut [f32; MOST_HALF_BAND_TAPS]', 'delay: &mut [f32; HBF_DEC_DELAY]',
    ],
    gauge_raw_hbf_dec_process_pair: [
        'm: &mut u64', 'coeffs: &mut [f32; MOST_HALF_BAND_TAPS]', 'delay: &mut [f32; HBF_DEC_DELAY]', 'a: f32',
        'b: f32', 'value: &mut f32',
    ],
    gauge_raw_hbf_dec_process: [
        'm: &mut u64', 'coeffs: &mut [f32; MOST_HALF_BAND_TAPS]', 'delay: &mut [f32; HBF_DEC_DELAY]', 'src: &[f32]',
        'dst: &mut [f32]', 'written: &mut u64',
    ],
    gauge_raw_hbf_dec_cascade_new: ['wanted_depth: u64', 'depth: &mut u64', 'delays: &mut [f32; HBF_DEC_DELAYS]'],
    gauge_raw_hbf_dec_cascade_reset: ['depth: &mut u64', 'delays: &mut [f32; HBF_DEC_DELAYS]'],
    gauge_raw_hbf_dec_cascade_process: [
        'depth: &mut u64', 'delays: &mut [f32; HBF_DEC_DELAYS]', 'src: &[f32]', 'dst: &mut [f32]', 'written: &mut u64',
    ],
    gauge_raw_hbf_dec_cascade_98_new: ['wanted_depth: u64', 'depth: &mut u64', 'delays: &mut [f32; HBF_DEC_DELAYS]'],
    gauge_raw_hbf_dec_cascade_98_reset: ['depth: &mut u64', 'delays: &mut [f32; HBF_DEC_DELAYS]'],
    gauge_raw_hbf_dec_cascade_98_process: [
        'depth: &mut u64', 'delays: &mut [f32; HBF_DEC_DELAYS]', 'src: &[f32]', 'dst: &mut [f32]', 'written: &mut u64',
    ],
    gauge_raw_hbf_int_new: [
        'taps: &[f32]', 'm: &mut u64', 'coeffs: &mut [f32; MOST_HALF_BAND_TAPS]', 'delay: &mut [f32; HBF_INT_DELAY]',
    ],
    gauge_raw_hbf_int_reset: [
        'm: &mut u64', 'coeffs: &mut [f32; MOST_HALF_BAND_TAPS]', 'delay: &mut [f32; HBF_INT_DELAY]',
    ],
    gauge_raw_hbf_int_process_sample: [
        'm: &mut u64', 'coeffs: &mut [f32; MOST_HALF_BAND_TAPS]', 'delay: &mut [f32; HBF_INT_DELAY]', 'x: f32',
        'even: &mut f32', 'odd: &mut f32',
    ],
    gauge_raw_hbf_int_process: [
        'm: &mut u64', 'coeffs: &mut [f32; MOST_HALF_BAND_TAPS]', 'delay: &mut [f32; HBF_INT_DELAY]', 'src: &[f32]',
        'dst: &mut [f32]', 'written: &mut u64',
    ],
    gauge_raw_hbf_int_cascade_new: ['wanted_depth: u64', 'depth: &mut u64', 'delays: &mut [f32; HBF_INT_DELAYS]'],
    gauge_raw_hbf_int_cascade_reset: ['depth: &mut u64', 'delays: &mut [f32; HBF_INT_DELAYS]'],
    gauge_raw_hbf_int_cascade_process: [
        'depth: &mut u64', 'delays: &mut [f32; HBF_INT_DELAYS]', 'src: &[f32]', 'dst: &mut [f32]', 'written: &mut u64',
    ],
    gauge_raw_hbf_stream_new: [
        'wanted_depth: u64', 'depth: &mut u64', 'delays: &mut [f32; HBF_DEC_DELAYS]', 'held: &mut [f32; MOST_DEPTH]',
        'counts: &mut [u64; MOST_DEPTH]',
    ],
    gauge_raw_hbf_stream_reset: [
        'depth: &mut u64', 'delays: &mut [f32; HBF_DEC_DELAYS]', 'held: &mut [f32; MOST_DEPTH]',
        'counts: &mut [u64; MOST_DEPTH]',
    ],
    gauge_raw_hbf_stream_process_sample: [
        'depth: &mut u64', 'delays: &mut [f32; HBF_DEC_DELAYS]', 'held: &mut [f32; MOST_DEPTH]',
        'counts: &mut [u64; MOST_DEPTH]', 'x: f32', 'made: &mut u64', 'value: &mut f32',
    ],
    gauge_raw_linear_phase_fir_new: [
        'wanted_odd: u64', 'wanted_antisymmetric: u64', 'wanted_taps: &[f32]', 'm: &mut u64', 'odd: &mut u64',
        'antisymmetric: &mut u64', 'taps: &mut [f32; MOST_LINEAR_PHASE_TAPS]', 'delay: &mut [f32; LINEAR_PHASE_DELAY]',
    ],
    gauge_raw_linear_phase_fir_reset: [
        'm: &mut u64', 'odd: &mut u64', 'antisymmetric: &mut u64', 'taps: &mut [f32; MOST_LINEAR_PHASE_TAPS]',
        'delay: &mut [f32; LINEAR_PHASE_DELAY]',
    ],
    gauge_raw_linear_phase_fir_response_length: [
        'm: u64', 'odd: u64', 'antisymmetric: u64', 'taps: &[f32; MOST_LINEAR_PHASE_TAPS]',
        'delay: &[f32; LINEAR_PHASE_DELAY]', 'length: &mut u64',
    ],
    gauge_raw_linear_phase_fir_process: [
        'm: &mut u64', 'odd: &mut u64', 'antisymmetric: &mut u64', 'taps: &mut [f32; MOST_LINEAR_PHASE_TAPS]',
        'delay: &mut [f32; LINEAR_PHASE_DELAY]', 'x: f32', 'value: &mut f32',
    ],
    gauge_raw_linear_phase_fir_block: [
        'm: &mut u64', 'odd: &mut u64', 'antisymmetric: &mut u64', 'taps: &mut [f32; MOST_LINEAR_PHASE_TAPS]',
        'delay: &mut [f32; LINEAR_PHASE_DELAY]', 'src: &[f32]', 'span: &mut [f32]', 'written: &mut u64',
    ],
    gauge_raw_linear_phase_fir_inplace: [
        'm: &mut u64', 'odd: &mut u64', 'antisymmetric: &mut u64', 'taps: &mut [f32; MOST_LINEAR_PHASE_TAPS]',
        'delay: &mut [f32; LINEAR_PHASE_DELAY]', 'span: &mut [f32]', 'written: &mut u64',
    ],
    gauge_raw_nonrecursive_decimator_new: [
        'wanted_stages: u64', 'wanted_r: u64', 'stages: &mut u64', 'r: &mut u64',
        'neighbours: &mut [i32; MOST_NEIGHBOURS]', 'place: &mut u64',
    ],
    gauge_raw_nonrecursive_decimator_gain: [
        'stages: u64', 'r: u64', 'neighbours: &[i32; MOST_NEIGHBOURS]', 'place: u64', 'gain: &mut u64',
    ],
    gauge_raw_nonrecursive_decimator_gain_bits: [
        'stages: u64', 'r: u64', 'neighbours: &[i32; MOST_NEIGHBOURS]', 'place: u64', 'bits: &mut u32',
    ],
    gauge_raw_nonrecursive_decimator_process_sample: [
        'stages: &mut u64', 'r: &mut u64', 'neighbours: &mut [i32; MOST_NEIGHBOURS]', 'place: &mut u64', 'input: i32',
        'made: &mut u64', 'sum: &mut i32',
    ],
    gauge_raw_nonrecursive_decimator_process_sample_scaled: [
        'stages: &mut u64', 'r: &mut u64', 'neighbours: &mut [i32; MOST_NEIGHBOURS]', 'place: &mut u64', 'input: i32',
        'made: &mut u64', 'sum: &mut i32',
    ],
    gauge_raw_nonrecursive_decimator_process_block: [
        'stages: &mut u64', 'r: &mut u64', 'neighbours: &mut [i32; MOST_NEIGHBOURS]', 'place: &mut u64', 'src: &[i32]',
        'dst: &mut [i32]', 'taken: &mut u64', 'written: &mut u64',
    ],
    gauge_raw_line_parked_len: [
        'stages: u64', 'r: u64', 'integrators: &[i32; MOST_STAGES]', 'combs: &[i32; MOST_STAGES]',
        'sample_counter: u64', 'taps: &[i16; MOST_TAPS]', 'tap_count: u64', 'factor: u64',
        'fir_delay: &[i16; MOST_TAPS]', 'wait: u64', 'depth: u64', 'delays: &[f32; HBF_DEC_DELAYS]',
        'held: &[f32; MOST_DEPTH]', 'counts: &[u64; MOST_DEPTH]', 'phases: u64', 'phase_taps: u64', 'straight: u64',
        'mu: f32', 'step: f32', 'delay: &[f32; MOST_PHASE_TAPS]', 'prototype: &[f32; MOST_PROTOTYPE]', 'cuts: u32',
        'thinning: u64', 'neighbours: &[i32; MOST_NEIGHBOURS]', 'bytes: &mut u64',
    ],
    gauge_raw_line_park: [
        'stages: u64', 'r: u64', 'integrators: &[i32; MOST_STAGES]', 'combs: &[i32; MOST_STAGES]',
        'sample_counter: u64', 'taps: &[i16; MOST_TAPS]', 'tap_count: u64', 'factor: u64',
        'fir_delay: &[i16; MOST_TAPS]', 'wait: u64', 'depth: u64', 'delays: &[f32; HBF_DEC_DELAYS]',
        'held: &[f32; MOST_DEPTH]', 'counts: &[u64; MOST_DEPTH]', 'phases: u64', 'phase_taps: u64', 'straight: u64',
        'mu: f32', 'step: f32', 'delay: &[f32; MOST_PHASE_TAPS]', 'prototype: &[f32; MOST_PROTOTYPE]', 'cuts: u32',
        'thinning: u64', 'neighbours: &[i32; MOST_NEIGHBOURS]', 'span: &mut [u8]', 'written: &mut u64',
    ],
    gauge_raw_line_take_up_3: [
        'bytes: &[u8]', 'stages: &mut u64', 'r: &mut u64', 'integrators: &mut [i32; MOST_STAGES]',
        'combs: &mut [i32; MOST_STAGES]', 'sample_counter: &mut u64', 'taps: &mut [i16; MOST_TAPS]',
        'tap_count: &mut u64', 'factor: &mut u64', 'fir_delay: &mut [i16; MOST_TAPS]', 'wait: &mut u64',
        'depth: &mut u64', 'delays: &mut [f32; HBF_DEC_DELAYS]', 'held: &mut [f32; MOST_DEPTH]',
        'counts: &mut [u64; MOST_DEPTH]', 'phases: &mut u64', 'phase_taps: &mut u64', 'straight: &mut u64',
        'mu: &mut f32', 'step: &mut f32', 'delay: &mut [f32; MOST_PHASE_TAPS]',
        'prototype: &mut [f32; MOST_PROTOTYPE]', 'cuts: &mut u32', 'thinning: &mut u64',
        'neighbours: &mut [i32; MOST_NEIGHBOURS]',
    ],
    gauge_raw_polyphase_resamp_from_taps: [
        'wanted_phases: u64', 'wanted_taps: u64', 'wanted_prototype: &[f32]', 'wanted_step: f32', 'phases: &mut u64',
        'taps: &mut u64', 'straight: &mut u64', 'mu: &mut f32', 'step: &mut f32', 'delay: &mut [f32; MOST_PHASE_TAPS]',
        'prototype: &mut [f32; MOST_PROTOTYPE]',
    ],
    gauge_raw_polyphase_resamp_from_taps_straight: [
        'wanted_phases: u64', 'wanted_taps: u64', 'wanted_prototype: &[f32]', 'wanted_step: f32', 'phases: &mut u64',
        'taps: &mut u64', 'straight: &mut u64', 'mu: &mut f32', 'step: &mut f32', 'delay: &mut [f32; MOST_PHASE_TAPS]',
        'prototype: &mut [f32; MOST_PROTOTYPE]',
    ],
    gauge_raw_polyphase_resamp_reset: [
        'phases: &mut u64', 'taps: &mut u64', 'straight: &mut u64', 'mu: &mut f32', 'step: &mut f32',
        'delay: &mut [f32; MOST_PHASE_TAPS]', 'prototype: &mut [f32; MOST_PROTOTYPE]',
    ],
    gauge_raw_polyphase_resamp_process_block: [
        'phases: &mut u64', 'taps: &mut u64', 'straight: &mut u64', 'mu: &mut f32', 'step: &mut f32',
        'delay: &mut [f32; MOST_PHASE_TAPS]', 'prototype: &mut [f32; MOST_PROTOTYPE]', 'src: &[f32]',
        'dst: &mut [f32]', 'taken: &mut u64', 'written: &mut u64',
    ],
    gauge_raw_polyphase_resamp_push: [
        'phases: &mut u64', 'taps: &mut u64', 'straight: &mut u64', 'mu: &mut f32', 'step: &mut f32',
        'delay: &mut [f32; MOST_PHASE_TAPS]', 'prototype: &mut [f32; MOST_PROTOTYPE]', 'x: f32', 'out: &mut [f32]',
        'written: &mut u64',
    ],
    gauge_raw_prototype_by_phase: [
        'phases: u64', 'taps: u64', 'prototype: &[f32]', 'rows: &mut [f32]', 'written: &mut u64',
    ],
    gauge_raw_prototype_by_tap: [
        'phases: u64', 'taps: u64', 'rows: &[f32]', 'prototype: &mut [f32]', 'written: &mut u64',
    ],
    gauge_raw_polyphase_decimate_q15: [
        'src: &[i16]', 'coeffs: &[i16]', 'decimation_factor: u64', 'dst: &mut [i16]', 'written: &mut u64',
        'cuts: &mut u64',
    ],
    gauge_raw_polyphase_interpolate_q15: [
        'src: &[i16]', 'coeffs: &[i16]', 'interpolation_factor: u64', 'dst: &mut [i16]', 'written: &mut u64',
        'cuts: &mut u64',
    ],
    gauge_raw_hbf_dec_reach: ['depth: u64', 'reach: &mut u64'],
    gauge_raw_hbf_dec_reach_98: ['depth: u64', 'reach: &mut u64'],
    gauge_raw_resample_linear_q15: ['src: &[i16]', 'dst: &mut [i16]', 'ratio_q16: i32', 'written: &mut u64'],
    gauge_raw_resample_linear_f32: ['src: &[f32]', 'dst: &mut [f32]', 'ratio: f32', 'written: &mut u64'],
    gauge_raw_sheet_count: ['bytes: &[u8]', 'count: &mut u64'],
    gauge_raw_sheet_entry: ['bytes: &[u8]', 'count: u64', 'k: u64', 'offset: &mut u64', 'size: &mut u64'],
    gauge_raw_sheet_write: ['joined: &[u8]', 'lengths: &[u64]', 'span: &mut [u8]', 'written: &mut u64'],
    gauge_raw_cut_q15: ['sum: i64', 'value: &mut i16', 'cut: &mut u64'],
    gauge_raw_q15_to_f32: ['bits: i16', 'value: &mut f32'],
    gauge_raw_hbf_dec_response_length: ['depth: u64', 'length: &mut u64'],
    gauge_raw_hbf_int_response_length: ['depth: u64', 'length: &mut u64'],
    gauge_raw_hbf_tap_table: ['taps: &mut [f32; HBF_TABLE]'],
    gauge_raw_hbf_tap_table_98: ['taps: &mut [f32; HBF_TABLE_98]'],
};

// The opening of each state.
export const STATES = {
    cic_decimator: 'gauge_raw_cic_decimator_new',
    cic_interpolator: 'gauge_raw_cic_interpolator_new',
    fir_decimator: 'gauge_raw_fir_decimator_new_2',
    line: 'gauge_raw_line_open_3',
    hbf_dec: 'gauge_raw_hbf_dec_new',
    hbf_dec_cascade: 'gauge_raw_hbf_dec_cascade_new',
    hbf_dec_cascade_98: 'gauge_raw_hbf_dec_cascade_98_new',
    hbf_int: 'gauge_raw_hbf_int_new',
    hbf_int_cascade: 'gauge_raw_hbf_int_cascade_new',
    hbf_stream: 'gauge_raw_hbf_stream_new',
    linear_phase_fir: 'gauge_raw_linear_phase_fir_new',
    nonrecursive_decimator: 'gauge_raw_nonrecursive_decimator_new',
    polyphase_resamp: 'gauge_raw_polyphase_resamp_from_taps',
};

// By number, from 1: the name, and when it applies.
export const REFUSALS = {
    1: ['Stages', "CIC stages not 1 to 8"],
    2: ['Factor', "CIC factor not 1 to 4,096"],
    3: ['GainBits', "gain bits over 31"],
    4: ['Span', "span shorter than the factor"],
    5: ['FirFactor', "FIR factor not 1 to 4,096"],
    6: ['Taps', "FIR taps none or too many"],
    7: ['Samples', "samples none, or samples or span over 65,536"],
    8: ['TapsMultiple', "FIR taps not a multiple of the factor"],
    9: ['Ratio', "ratio not above zero or not finite"],
    10: ['HalfBandTaps', "half-band taps not 1 to 23"],
    11: ['Depth', "depth out of its limits"],
    12: ['Phases', "phases not 2 to 64, or their taps not 1 to 16"],
    13: ['Prototype', "prototype not phases times taps long"],
    14: ['Step', "step out of its limits"],
    15: ['State', "settings that the opening refuses, or a counter out of range"],
    16: ['Directory', "sheet with too many entries, or cut off inside its directory"],
    17: ['Entries', "entries unsorted, overlapping or outside the sheet's data"],
    18: ['EntryNumber', "entry number not below the count"],
    19: ['PhaseTaps', "linear-phase taps not 1 to 23"],
    20: ['Lengths', "source and span not of one length"],
    21: ['Parked', "another count of entries than a parked line has, or an entry of another length"],
    22: ['Plan', "lists of a plan not of one length, or past a limit"],
    23: ['PowerOfTwo', "factor not a power of two"],
};
