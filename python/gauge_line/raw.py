"""The archive's functions as ctypes declares them: crates/gauge_line/src has their contracts.

A slice is a pointer and a length; a state is its fields, each lent.

Printed by host/bindings/run.sh from there.
"""

from ctypes import POINTER, Structure
from ctypes import c_float as f32
from ctypes import c_int16 as i16, c_int32 as i32, c_int64 as i64
from ctypes import c_uint8 as u8, c_uint32 as u32, c_uint64 as u64

from . import limits


class CicDecimator(Structure):
    _fields_ = [
        ("stages", u64),
        ("r", u64),
        ("integrators", i32 * limits.MOST_STAGES),
        ("combs", i32 * limits.MOST_STAGES),
        ("sample_counter", u64),
    ]


class CicInterpolator(Structure):
    _fields_ = [
        ("stages", u64),
        ("r", u64),
        ("combs", i32 * limits.MOST_STAGES),
        ("integrators", i32 * limits.MOST_STAGES),
    ]


class FirDecimator(Structure):
    _fields_ = [
        ("taps", i16 * limits.MOST_TAPS),
        ("tap_count", u64),
        ("factor", u64),
        ("delay", i16 * limits.MOST_TAPS),
        ("wait", u64),
    ]


class Line(Structure):
    _fields_ = [
        ("stages", u64),
        ("r", u64),
        ("integrators", i32 * limits.MOST_STAGES),
        ("combs", i32 * limits.MOST_STAGES),
        ("sample_counter", u64),
        ("taps", i16 * limits.MOST_TAPS),
        ("tap_count", u64),
        ("factor", u64),
        ("fir_delay", i16 * limits.MOST_TAPS),
        ("wait", u64),
        ("depth", u64),
        ("delays", f32 * limits.HBF_DEC_DELAYS),
        ("held", f32 * limits.MOST_DEPTH),
        ("counts", u64 * limits.MOST_DEPTH),
        ("phases", u64),
        ("phase_taps", u64),
        ("straight", u64),
        ("mu", f32),
        ("step", f32),
        ("delay", f32 * limits.MOST_PHASE_TAPS),
        ("prototype", f32 * limits.MOST_PROTOTYPE),
        ("cuts", u32),
        ("thinning", u64),
        ("neighbours", i32 * limits.MOST_NEIGHBOURS),
    ]


class HbfDec(Structure):
    _fields_ = [
        ("m", u64),
        ("coeffs", f32 * limits.MOST_HALF_BAND_TAPS),
        ("delay", f32 * limits.HBF_DEC_DELAY),
    ]


class HbfDecCascade(Structure):
    _fields_ = [
        ("depth", u64),
        ("delays", f32 * limits.HBF_DEC_DELAYS),
    ]


class HbfDecCascade98(Structure):
    _fields_ = [
        ("depth", u64),
        ("delays", f32 * limits.HBF_DEC_DELAYS),
    ]


class HbfInt(Structure):
    _fields_ = [
        ("m", u64),
        ("coeffs", f32 * limits.MOST_HALF_BAND_TAPS),
        ("delay", f32 * limits.HBF_INT_DELAY),
    ]


class HbfIntCascade(Structure):
    _fields_ = [
        ("depth", u64),
        ("delays", f32 * limits.HBF_INT_DELAYS),
    ]


class HbfStream(Structure):
    _fields_ = [
        ("depth", u64),
        ("delays", f32 * limits.HBF_DEC_DELAYS),
        ("held", f32 * limits.MOST_DEPTH),
        ("counts", u64 * limits.MOST_DEPTH),
    ]


class LinearPhaseFir(Structure):
    _fields_ = [
        ("m", u64),
        ("odd", u64),
        ("antisymmetric", u64),
        ("taps", f32 * limits.MOST_LINEAR_PHASE_TAPS),
        ("delay", f32 * limits.LINEAR_PHASE_DELAY),
    ]


class NonrecursiveDecimator(Structure):
    _fields_ = [
        ("stages", u64),
        ("r", u64),
        ("neighbours", i32 * limits.MOST_NEIGHBOURS),
        ("place", u64),
    ]


class PolyphaseResamp(Structure):
    _fields_ = [
        ("phases", u64),
        ("taps", u64),
        ("straight", u64),
        ("mu", f32),
        ("step", f32),
        ("delay", f32 * limits.MOST_PHASE_TAPS),
        ("prototype", f32 * limits.MOST_PROTOTYPE),
    ]


# For each function what it answers, the number of a refusal or nothing, and its parameters.
FUNCTIONS = {
    "gauge_raw_cic_decimator_new": (u64, [
        ("wanted_stages", u64), ("wanted_r", u64), ("stages", POINTER(u64)), ("r", POINTER(u64)),
        ("integrators", POINTER(i32 * limits.MOST_STAGES)),
        ("combs", POINTER(i32 * limits.MOST_STAGES)), ("sample_counter", POINTER(u64)),
    ]),
    "gauge_raw_cic_decimator_gain": (u64, [
        ("stages", u64), ("r", u64), ("integrators", POINTER(i32 * limits.MOST_STAGES)),
        ("combs", POINTER(i32 * limits.MOST_STAGES)), ("sample_counter", u64),
        ("gain", POINTER(u64)),
    ]),
    "gauge_raw_cic_decimator_gain_bits": (u64, [
        ("stages", u64), ("r", u64), ("integrators", POINTER(i32 * limits.MOST_STAGES)),
        ("combs", POINTER(i32 * limits.MOST_STAGES)), ("sample_counter", u64),
        ("bits", POINTER(u32)),
    ]),
    "gauge_raw_cic_decimator_exact_range": (u64, [
        ("stages", u64), ("r", u64), ("integrators", POINTER(i32 * limits.MOST_STAGES)),
        ("combs", POINTER(i32 * limits.MOST_STAGES)), ("sample_counter", u64),
        ("least", POINTER(i32)), ("greatest", POINTER(i32)),
    ]),
    "gauge_raw_cic_decimator_process_sample": (u64, [
        ("stages", POINTER(u64)), ("r", POINTER(u64)),
        ("integrators", POINTER(i32 * limits.MOST_STAGES)),
        ("combs", POINTER(i32 * limits.MOST_STAGES)), ("sample_counter", POINTER(u64)),
        ("input", i32), ("made", POINTER(u64)), ("sum", POINTER(i32)),
    ]),
    "gauge_raw_cic_decimator_process_sample_scaled": (u64, [
        ("stages", POINTER(u64)), ("r", POINTER(u64)),
        ("integrators", POINTER(i32 * limits.MOST_STAGES)),
        ("combs", POINTER(i32 * limits.MOST_STAGES)), ("sample_counter", POINTER(u64)),
        ("input", i32), ("made", POINTER(u64)), ("sum", POINTER(i32)),
    ]),
    "gauge_raw_cic_decimator_process_block": (u64, [
        ("stages", POINTER(u64)), ("r", POINTER(u64)),
        ("integrators", POINTER(i32 * limits.MOST_STAGES)),
        ("combs", POINTER(i32 * limits.MOST_STAGES)), ("sample_counter", POINTER(u64)),
        ("src", POINTER(i32)), ("src_len", u64), ("dst", POINTER(i32)), ("dst_len", u64),
        ("taken", POINTER(u64)), ("written", POINTER(u64)),
    ]),
    "gauge_raw_cic_interpolator_new": (u64, [
        ("wanted_stages", u64), ("wanted_r", u64), ("stages", POINTER(u64)), ("r", POINTER(u64)),
        ("combs", POINTER(i32 * limits.MOST_STAGES)),
        ("integrators", POINTER(i32 * limits.MOST_STAGES)),
    ]),
    "gauge_raw_cic_interpolator_gain": (u64, [
        ("stages", u64), ("r", u64), ("combs", POINTER(i32 * limits.MOST_STAGES)),
        ("integrators", POINTER(i32 * limits.MOST_STAGES)), ("gain", POINTER(u64)),
    ]),
    "gauge_raw_cic_interpolator_gain_bits": (u64, [
        ("stages", u64), ("r", u64), ("combs", POINTER(i32 * limits.MOST_STAGES)),
        ("integrators", POINTER(i32 * limits.MOST_STAGES)), ("bits", POINTER(u32)),
    ]),
    "gauge_raw_cic_interpolator_process_sample": (u64, [
        ("stages", POINTER(u64)), ("r", POINTER(u64)),
        ("combs", POINTER(i32 * limits.MOST_STAGES)),
        ("integrators", POINTER(i32 * limits.MOST_STAGES)), ("input", i32),
        ("out_buf", POINTER(i32)), ("out_buf_len", u64), ("written", POINTER(u64)),
    ]),
    "gauge_raw_cic_interpolator_process_block": (u64, [
        ("stages", POINTER(u64)), ("r", POINTER(u64)),
        ("combs", POINTER(i32 * limits.MOST_STAGES)),
        ("integrators", POINTER(i32 * limits.MOST_STAGES)), ("src", POINTER(i32)),
        ("src_len", u64), ("dst", POINTER(i32)), ("dst_len", u64), ("taken", POINTER(u64)),
        ("written", POINTER(u64)),
    ]),
    "gauge_raw_plan_3": (u64, [
        ("stages", u64), ("r", u64), ("factor", u64), ("depth", u64), ("phases", u64),
        ("phase_taps", u64), ("straight", u64), ("step", f32), ("thinning", u64),
        ("taps", POINTER(i16)), ("taps_len", u64), ("prototype", POINTER(f32)),
        ("prototype_len", u64), ("pieces", POINTER(u64)), ("pieces_len", u64),
        ("spans", POINTER(u64)), ("spans_len", u64), ("taken", POINTER(u64)), ("taken_len", u64),
        ("written", POINTER(u64)), ("written_len", u64),
    ]),
    "gauge_raw_fir_decimator_new_2": (u64, [
        ("wanted_taps", POINTER(i16)), ("wanted_taps_len", u64), ("wanted_factor", u64),
        ("taps", POINTER(i16 * limits.MOST_TAPS)), ("tap_count", POINTER(u64)),
        ("factor", POINTER(u64)), ("delay", POINTER(i16 * limits.MOST_TAPS)),
        ("wait", POINTER(u64)),
    ]),
    "gauge_raw_fir_decimator_reset": (u64, [
        ("taps", POINTER(i16 * limits.MOST_TAPS)), ("tap_count", POINTER(u64)),
        ("factor", POINTER(u64)), ("delay", POINTER(i16 * limits.MOST_TAPS)),
        ("wait", POINTER(u64)),
    ]),
    "gauge_raw_fir_decimator_process_sample": (u64, [
        ("taps", POINTER(i16 * limits.MOST_TAPS)), ("tap_count", POINTER(u64)),
        ("factor", POINTER(u64)), ("delay", POINTER(i16 * limits.MOST_TAPS)),
        ("wait", POINTER(u64)), ("sample", i16), ("made", POINTER(u64)), ("value", POINTER(i16)),
        ("cut", POINTER(u64)),
    ]),
    "gauge_raw_line_open_3": (u64, [
        ("wanted_stages", u64), ("wanted_r", u64), ("wanted_factor", u64), ("wanted_depth", u64),
        ("wanted_phases", u64), ("wanted_phase_taps", u64), ("wanted_straight", u64),
        ("wanted_step", f32), ("wanted_thinning", u64), ("wanted_taps", POINTER(i16)),
        ("wanted_taps_len", u64), ("wanted_prototype", POINTER(f32)),
        ("wanted_prototype_len", u64), ("stages", POINTER(u64)), ("r", POINTER(u64)),
        ("integrators", POINTER(i32 * limits.MOST_STAGES)),
        ("combs", POINTER(i32 * limits.MOST_STAGES)), ("sample_counter", POINTER(u64)),
        ("taps", POINTER(i16 * limits.MOST_TAPS)), ("tap_count", POINTER(u64)),
        ("factor", POINTER(u64)), ("fir_delay", POINTER(i16 * limits.MOST_TAPS)),
        ("wait", POINTER(u64)), ("depth", POINTER(u64)),
        ("delays", POINTER(f32 * limits.HBF_DEC_DELAYS)),
        ("held", POINTER(f32 * limits.MOST_DEPTH)), ("counts", POINTER(u64 * limits.MOST_DEPTH)),
        ("phases", POINTER(u64)), ("phase_taps", POINTER(u64)), ("straight", POINTER(u64)),
        ("mu", POINTER(f32)), ("step", POINTER(f32)),
        ("delay", POINTER(f32 * limits.MOST_PHASE_TAPS)),
        ("prototype", POINTER(f32 * limits.MOST_PROTOTYPE)), ("cuts", POINTER(u32)),
        ("thinning", POINTER(u64)), ("neighbours", POINTER(i32 * limits.MOST_NEIGHBOURS)),
    ]),
    "gauge_raw_line_reset": (u64, [
        ("stages", POINTER(u64)), ("r", POINTER(u64)),
        ("integrators", POINTER(i32 * limits.MOST_STAGES)),
        ("combs", POINTER(i32 * limits.MOST_STAGES)), ("sample_counter", POINTER(u64)),
        ("taps", POINTER(i16 * limits.MOST_TAPS)), ("tap_count", POINTER(u64)),
        ("factor", POINTER(u64)), ("fir_delay", POINTER(i16 * limits.MOST_TAPS)),
        ("wait", POINTER(u64)), ("depth", POINTER(u64)),
        ("delays", POINTER(f32 * limits.HBF_DEC_DELAYS)),
        ("held", POINTER(f32 * limits.MOST_DEPTH)), ("counts", POINTER(u64 * limits.MOST_DEPTH)),
        ("phases", POINTER(u64)), ("phase_taps", POINTER(u64)), ("straight", POINTER(u64)),
        ("mu", POINTER(f32)), ("step", POINTER(f32)),
        ("delay", POINTER(f32 * limits.MOST_PHASE_TAPS)),
        ("prototype", POINTER(f32 * limits.MOST_PROTOTYPE)), ("cuts", POINTER(u32)),
        ("thinning", POINTER(u64)), ("neighbours", POINTER(i32 * limits.MOST_NEIGHBOURS)),
    ]),
    "gauge_raw_line_step": (u64, [
        ("stages", POINTER(u64)), ("r", POINTER(u64)),
        ("integrators", POINTER(i32 * limits.MOST_STAGES)),
        ("combs", POINTER(i32 * limits.MOST_STAGES)), ("sample_counter", POINTER(u64)),
        ("taps", POINTER(i16 * limits.MOST_TAPS)), ("tap_count", POINTER(u64)),
        ("factor", POINTER(u64)), ("fir_delay", POINTER(i16 * limits.MOST_TAPS)),
        ("wait", POINTER(u64)), ("depth", POINTER(u64)),
        ("delays", POINTER(f32 * limits.HBF_DEC_DELAYS)),
        ("held", POINTER(f32 * limits.MOST_DEPTH)), ("counts", POINTER(u64 * limits.MOST_DEPTH)),
        ("phases", POINTER(u64)), ("phase_taps", POINTER(u64)), ("straight", POINTER(u64)),
        ("mu", POINTER(f32)), ("step", POINTER(f32)),
        ("delay", POINTER(f32 * limits.MOST_PHASE_TAPS)),
        ("prototype", POINTER(f32 * limits.MOST_PROTOTYPE)), ("cuts", POINTER(u32)),
        ("thinning", POINTER(u64)), ("neighbours", POINTER(i32 * limits.MOST_NEIGHBOURS)),
        ("samples", POINTER(i32)), ("samples_len", u64), ("at", u64), ("places", u64),
        ("taken", POINTER(u64)), ("written", POINTER(u64)), ("value", POINTER(f32)),
    ]),
    "gauge_raw_line_feed": (u64, [
        ("stages", POINTER(u64)), ("r", POINTER(u64)),
        ("integrators", POINTER(i32 * limits.MOST_STAGES)),
        ("combs", POINTER(i32 * limits.MOST_STAGES)), ("sample_counter", POINTER(u64)),
        ("taps", POINTER(i16 * limits.MOST_TAPS)), ("tap_count", POINTER(u64)),
        ("factor", POINTER(u64)), ("fir_delay", POINTER(i16 * limits.MOST_TAPS)),
        ("wait", POINTER(u64)), ("depth", POINTER(u64)),
        ("delays", POINTER(f32 * limits.HBF_DEC_DELAYS)),
        ("held", POINTER(f32 * limits.MOST_DEPTH)), ("counts", POINTER(u64 * limits.MOST_DEPTH)),
        ("phases", POINTER(u64)), ("phase_taps", POINTER(u64)), ("straight", POINTER(u64)),
        ("mu", POINTER(f32)), ("step", POINTER(f32)),
        ("delay", POINTER(f32 * limits.MOST_PHASE_TAPS)),
        ("prototype", POINTER(f32 * limits.MOST_PROTOTYPE)), ("cuts", POINTER(u32)),
        ("thinning", POINTER(u64)), ("neighbours", POINTER(i32 * limits.MOST_NEIGHBOURS)),
        ("samples", POINTER(i32)), ("samples_len", u64), ("out", POINTER(f32)), ("out_len", u64),
        ("taken", POINTER(u64)), ("written", POINTER(u64)),
    ]),
    "gauge_raw_hbf_dec_new": (u64, [
        ("taps", POINTER(f32)), ("taps_len", u64), ("m", POINTER(u64)),
        ("coeffs", POINTER(f32 * limits.MOST_HALF_BAND_TAPS)),
        ("delay", POINTER(f32 * limits.HBF_DEC_DELAY)),
    ]),
    "gauge_raw_hbf_dec_reset": (u64, [
        ("m", POINTER(u64)), ("coeffs", POINTER(f32 * limits.MOST_HALF_BAND_TAPS)),
        ("delay", POINTER(f32 * limits.HBF_DEC_DELAY)),
    ]),
    "gauge_raw_hbf_dec_process_pair": (u64, [
        ("m", POINTER(u64)), ("coeffs", POINTER(f32 * limits.MOST_HALF_BAND_TAPS)),
        ("delay", POINTER(f32 * limits.HBF_DEC_DELAY)), ("a", f32), ("b", f32),
        ("value", POINTER(f32)),
    ]),
    "gauge_raw_hbf_dec_process": (u64, [
        ("m", POINTER(u64)), ("coeffs", POINTER(f32 * limits.MOST_HALF_BAND_TAPS)),
        ("delay", POINTER(f32 * limits.HBF_DEC_DELAY)), ("src", POINTER(f32)), ("src_len", u64),
        ("dst", POINTER(f32)), ("dst_len", u64), ("written", POINTER(u64)),
    ]),
    "gauge_raw_hbf_dec_cascade_new": (u64, [
        ("wanted_depth", u64), ("depth", POINTER(u64)),
        ("delays", POINTER(f32 * limits.HBF_DEC_DELAYS)),
    ]),
    "gauge_raw_hbf_dec_cascade_reset": (u64, [
        ("depth", POINTER(u64)), ("delays", POINTER(f32 * limits.HBF_DEC_DELAYS)),
    ]),
    "gauge_raw_hbf_dec_cascade_process": (u64, [
        ("depth", POINTER(u64)), ("delays", POINTER(f32 * limits.HBF_DEC_DELAYS)),
        ("src", POINTER(f32)), ("src_len", u64), ("dst", POINTER(f32)), ("dst_len", u64),
        ("written", POINTER(u64)),
    ]),
    "gauge_raw_hbf_dec_cascade_98_new": (u64, [
        ("wanted_depth", u64), ("depth", POINTER(u64)),
        ("delays", POINTER(f32 * limits.HBF_DEC_DELAYS)),
    ]),
    "gauge_raw_hbf_dec_cascade_98_reset": (u64, [
        ("depth", POINTER(u64)), ("delays", POINTER(f32 * limits.HBF_DEC_DELAYS)),
    ]),
    "gauge_raw_hbf_dec_cascade_98_process": (u64, [
        ("depth", POINTER(u64)), ("delays", POINTER(f32 * limits.HBF_DEC_DELAYS)),
        ("src", POINTER(f32)), ("src_len", u64), ("dst", POINTER(f32)), ("dst_len", u64),
        ("written", POINTER(u64)),
    ]),
    "gauge_raw_hbf_int_new": (u64, [
        ("taps", POINTER(f32)), ("taps_len", u64), ("m", POINTER(u64)),
        ("coeffs", POINTER(f32 * limits.MOST_HALF_BAND_TAPS)),
        ("delay", POINTER(f32 * limits.HBF_INT_DELAY)),
    ]),
    "gauge_raw_hbf_int_reset": (u64, [
        ("m", POINTER(u64)), ("coeffs", POINTER(f32 * limits.MOST_HALF_BAND_TAPS)),
        ("delay", POINTER(f32 * limits.HBF_INT_DELAY)),
    ]),
    "gauge_raw_hbf_int_process_sample": (u64, [
        ("m", POINTER(u64)), ("coeffs", POINTER(f32 * limits.MOST_HALF_BAND_TAPS)),
        ("delay", POINTER(f32 * limits.HBF_INT_DELAY)), ("x", f32), ("even", POINTER(f32)),
        ("odd", POINTER(f32)),
    ]),
    "gauge_raw_hbf_int_process": (u64, [
        ("m", POINTER(u64)), ("coeffs", POINTER(f32 * limits.MOST_HALF_BAND_TAPS)),
        ("delay", POINTER(f32 * limits.HBF_INT_DELAY)), ("src", POINTER(f32)), ("src_len", u64),
        ("dst", POINTER(f32)), ("dst_len", u64), ("written", POINTER(u64)),
    ]),
    "gauge_raw_hbf_int_cascade_new": (u64, [
        ("wanted_depth", u64), ("depth", POINTER(u64)),
        ("delays", POINTER(f32 * limits.HBF_INT_DELAYS)),
    ]),
    "gauge_raw_hbf_int_cascade_reset": (u64, [
        ("depth", POINTER(u64)), ("delays", POINTER(f32 * limits.HBF_INT_DELAYS)),
    ]),
    "gauge_raw_hbf_int_cascade_process": (u64, [
        ("depth", POINTER(u64)), ("delays", POINTER(f32 * limits.HBF_INT_DELAYS)),
        ("src", POINTER(f32)), ("src_len", u64), ("dst", POINTER(f32)), ("dst_len", u64),
        ("written", POINTER(u64)),
    ]),
    "gauge_raw_hbf_stream_new": (u64, [
        ("wanted_depth", u64), ("depth", POINTER(u64)),
        ("delays", POINTER(f32 * limits.HBF_DEC_DELAYS)),
        ("held", POINTER(f32 * limits.MOST_DEPTH)), ("counts", POINTER(u64 * limits.MOST_DEPTH)),
    ]),
    "gauge_raw_hbf_stream_reset": (u64, [
        ("depth", POINTER(u64)), ("delays", POINTER(f32 * limits.HBF_DEC_DELAYS)),
        ("held", POINTER(f32 * limits.MOST_DEPTH)), ("counts", POINTER(u64 * limits.MOST_DEPTH)),
    ]),
    "gauge_raw_hbf_stream_process_sample": (u64, [
        ("depth", POINTER(u64)), ("delays", POINTER(f32 * limits.HBF_DEC_DELAYS)),
        ("held", POINTER(f32 * limits.MOST_DEPTH)), ("counts", POINTER(u64 * limits.MOST_DEPTH)),
        ("x", f32), ("made", POINTER(u64)), ("value", POINTER(f32)),
    ]),
    "gauge_raw_linear_phase_fir_new": (u64, [
        ("wanted_odd", u64), ("wanted_antisymmetric", u64), ("wanted_taps", POINTER(f32)),
        ("wanted_taps_len", u64), ("m", POINTER(u64)), ("odd", POINTER(u64)),
        ("antisymmetric", POINTER(u64)), ("taps", POINTER(f32 * limits.MOST_LINEAR_PHASE_TAPS)),
        ("delay", POINTER(f32 * limits.LINEAR_PHASE_DELAY)),
    ]),
    "gauge_raw_linear_phase_fir_reset": (u64, [
        ("m", POINTER(u64)), ("odd", POINTER(u64)), ("antisymmetric", POINTER(u64)),
        ("taps", POINTER(f32 * limits.MOST_LINEAR_PHASE_TAPS)),
        ("delay", POINTER(f32 * limits.LINEAR_PHASE_DELAY)),
    ]),
    "gauge_raw_linear_phase_fir_response_length": (u64, [
        ("m", u64), ("odd", u64), ("antisymmetric", u64),
        ("taps", POINTER(f32 * limits.MOST_LINEAR_PHASE_TAPS)),
        ("delay", POINTER(f32 * limits.LINEAR_PHASE_DELAY)), ("length", POINTER(u64)),
    ]),
    "gauge_raw_linear_phase_fir_process": (u64, [
        ("m", POINTER(u64)), ("odd", POINTER(u64)), ("antisymmetric", POINTER(u64)),
        ("taps", POINTER(f32 * limits.MOST_LINEAR_PHASE_TAPS)),
        ("delay", POINTER(f32 * limits.LINEAR_PHASE_DELAY)), ("x", f32), ("value", POINTER(f32)),
    ]),
    "gauge_raw_linear_phase_fir_block": (u64, [
        ("m", POINTER(u64)), ("odd", POINTER(u64)), ("antisymmetric", POINTER(u64)),
        ("taps", POINTER(f32 * limits.MOST_LINEAR_PHASE_TAPS)),
        ("delay", POINTER(f32 * limits.LINEAR_PHASE_DELAY)), ("src", POINTER(f32)),
        ("src_len", u64), ("span", POINTER(f32)), ("span_len", u64), ("written", POINTER(u64)),
    ]),
    "gauge_raw_linear_phase_fir_inplace": (u64, [
        ("m", POINTER(u64)), ("odd", POINTER(u64)), ("antisymmetric", POINTER(u64)),
        ("taps", POINTER(f32 * limits.MOST_LINEAR_PHASE_TAPS)),
        ("delay", POINTER(f32 * limits.LINEAR_PHASE_DELAY)), ("span", POINTER(f32)),
        ("span_len", u64), ("written", POINTER(u64)),
    ]),
    "gauge_raw_nonrecursive_decimator_new": (u64, [
        ("wanted_stages", u64), ("wanted_r", u64), ("stages", POINTER(u64)), ("r", POINTER(u64)),
        ("neighbours", POINTER(i32 * limits.MOST_NEIGHBOURS)), ("place", POINTER(u64)),
    ]),
    "gauge_raw_nonrecursive_decimator_gain": (u64, [
        ("stages", u64), ("r", u64), ("neighbours", POINTER(i32 * limits.MOST_NEIGHBOURS)),
        ("place", u64), ("gain", POINTER(u64)),
    ]),
    "gauge_raw_nonrecursive_decimator_gain_bits": (u64, [
        ("stages", u64), ("r", u64), ("neighbours", POINTER(i32 * limits.MOST_NEIGHBOURS)),
        ("place", u64), ("bits", POINTER(u32)),
    ]),
    "gauge_raw_nonrecursive_decimator_process_sample": (u64, [
        ("stages", POINTER(u64)), ("r", POINTER(u64)),
        ("neighbours", POINTER(i32 * limits.MOST_NEIGHBOURS)), ("place", POINTER(u64)),
        ("input", i32), ("made", POINTER(u64)), ("sum", POINTER(i32)),
    ]),
    "gauge_raw_nonrecursive_decimator_process_sample_scaled": (u64, [
        ("stages", POINTER(u64)), ("r", POINTER(u64)),
        ("neighbours", POINTER(i32 * limits.MOST_NEIGHBOURS)), ("place", POINTER(u64)),
        ("input", i32), ("made", POINTER(u64)), ("sum", POINTER(i32)),
    ]),
    "gauge_raw_nonrecursive_decimator_process_block": (u64, [
        ("stages", POINTER(u64)), ("r", POINTER(u64)),
        ("neighbours", POINTER(i32 * limits.MOST_NEIGHBOURS)), ("place", POINTER(u64)),
        ("src", POINTER(i32)), ("src_len", u64), ("dst", POINTER(i32)), ("dst_len", u64),
        ("taken", POINTER(u64)), ("written", POINTER(u64)),
    ]),
    "gauge_raw_line_parked_len": (u64, [
        ("stages", u64), ("r", u64), ("integrators", POINTER(i32 * limits.MOST_STAGES)),
        ("combs", POINTER(i32 * limits.MOST_STAGES)), ("sample_counter", u64),
        ("taps", POINTER(i16 * limits.MOST_TAPS)), ("tap_count", u64), ("factor", u64),
        ("fir_delay", POINTER(i16 * limits.MOST_TAPS)), ("wait", u64), ("depth", u64),
        ("delays", POINTER(f32 * limits.HBF_DEC_DELAYS)),
        ("held", POINTER(f32 * limits.MOST_DEPTH)), ("counts", POINTER(u64 * limits.MOST_DEPTH)),
        ("phases", u64), ("phase_taps", u64), ("straight", u64), ("mu", f32), ("step", f32),
        ("delay", POINTER(f32 * limits.MOST_PHASE_TAPS)),
        ("prototype", POINTER(f32 * limits.MOST_PROTOTYPE)), ("cuts", u32), ("thinning", u64),
        ("neighbours", POINTER(i32 * limits.MOST_NEIGHBOURS)), ("bytes", POINTER(u64)),
    ]),
    "gauge_raw_line_park": (u64, [
        ("stages", u64), ("r", u64), ("integrators", POINTER(i32 * limits.MOST_STAGES)),
        ("combs", POINTER(i32 * limits.MOST_STAGES)), ("sample_counter", u64),
        ("taps", POINTER(i16 * limits.MOST_TAPS)), ("tap_count", u64), ("factor", u64),
        ("fir_delay", POINTER(i16 * limits.MOST_TAPS)), ("wait", u64), ("depth", u64),
        ("delays", POINTER(f32 * limits.HBF_DEC_DELAYS)),
        ("held", POINTER(f32 * limits.MOST_DEPTH)), ("counts", POINTER(u64 * limits.MOST_DEPTH)),
        ("phases", u64), ("phase_taps", u64), ("straight", u64), ("mu", f32), ("step", f32),
        ("delay", POINTER(f32 * limits.MOST_PHASE_TAPS)),
        ("prototype", POINTER(f32 * limits.MOST_PROTOTYPE)), ("cuts", u32), ("thinning", u64),
        ("neighbours", POINTER(i32 * limits.MOST_NEIGHBOURS)), ("span", POINTER(u8)),
        ("span_len", u64), ("written", POINTER(u64)),
    ]),
    "gauge_raw_line_take_up_3": (u64, [
        ("bytes", POINTER(u8)), ("bytes_len", u64), ("stages", POINTER(u64)), ("r", POINTER(u64)),
        ("integrators", POINTER(i32 * limits.MOST_STAGES)),
        ("combs", POINTER(i32 * limits.MOST_STAGES)), ("sample_counter", POINTER(u64)),
        ("taps", POINTER(i16 * limits.MOST_TAPS)), ("tap_count", POINTER(u64)),
        ("factor", POINTER(u64)), ("fir_delay", POINTER(i16 * limits.MOST_TAPS)),
        ("wait", POINTER(u64)), ("depth", POINTER(u64)),
        ("delays", POINTER(f32 * limits.HBF_DEC_DELAYS)),
        ("held", POINTER(f32 * limits.MOST_DEPTH)), ("counts", POINTER(u64 * limits.MOST_DEPTH)),
        ("phases", POINTER(u64)), ("phase_taps", POINTER(u64)), ("straight", POINTER(u64)),
        ("mu", POINTER(f32)), ("step", POINTER(f32)),
        ("delay", POINTER(f32 * limits.MOST_PHASE_TAPS)),
        ("prototype", POINTER(f32 * limits.MOST_PROTOTYPE)), ("cuts", POINTER(u32)),
        ("thinning", POINTER(u64)), ("neighbours", POINTER(i32 * limits.MOST_NEIGHBOURS)),
    ]),
    "gauge_raw_polyphase_resamp_from_taps": (u64, [
        ("wanted_phases", u64), ("wanted_taps", u64), ("wanted_prototype", POINTER(f32)),
        ("wanted_prototype_len", u64), ("wanted_step", f32), ("phases", POINTER(u64)),
        ("taps", POINTER(u64)), ("straight", POINTER(u64)), ("mu", POINTER(f32)),
        ("step", POINTER(f32)), ("delay", POINTER(f32 * limits.MOST_PHASE_TAPS)),
        ("prototype", POINTER(f32 * limits.MOST_PROTOTYPE)),
    ]),
    "gauge_raw_polyphase_resamp_from_taps_straight": (u64, [
        ("wanted_phases", u64), ("wanted_taps", u64), ("wanted_prototype", POINTER(f32)),
        ("wanted_prototype_len", u64), ("wanted_step", f32), ("phases", POINTER(u64)),
        ("taps", POINTER(u64)), ("straight", POINTER(u64)), ("mu", POINTER(f32)),
        ("step", POINTER(f32)), ("delay", POINTER(f32 * limits.MOST_PHASE_TAPS)),
        ("prototype", POINTER(f32 * limits.MOST_PROTOTYPE)),
    ]),
    "gauge_raw_polyphase_resamp_reset": (u64, [
        ("phases", POINTER(u64)), ("taps", POINTER(u64)), ("straight", POINTER(u64)),
        ("mu", POINTER(f32)), ("step", POINTER(f32)),
        ("delay", POINTER(f32 * limits.MOST_PHASE_TAPS)),
        ("prototype", POINTER(f32 * limits.MOST_PROTOTYPE)),
    ]),
    "gauge_raw_polyphase_resamp_process_block": (u64, [
        ("phases", POINTER(u64)), ("taps", POINTER(u64)), ("straight", POINTER(u64)),
        ("mu", POINTER(f32)), ("step", POINTER(f32)),
        ("delay", POINTER(f32 * limits.MOST_PHASE_TAPS)),
        ("prototype", POINTER(f32 * limits.MOST_PROTOTYPE)), ("src", POINTER(f32)),
        ("src_len", u64), ("dst", POINTER(f32)), ("dst_len", u64), ("taken", POINTER(u64)),
        ("written", POINTER(u64)),
    ]),
    "gauge_raw_polyphase_resamp_push": (u64, [
        ("phases", POINTER(u64)), ("taps", POINTER(u64)), ("straight", POINTER(u64)),
        ("mu", POINTER(f32)), ("step", POINTER(f32)),
        ("delay", POINTER(f32 * limits.MOST_PHASE_TAPS)),
        ("prototype", POINTER(f32 * limits.MOST_PROTOTYPE)), ("x", f32), ("out", POINTER(f32)),
        ("out_len", u64), ("written", POINTER(u64)),
    ]),
    "gauge_raw_prototype_by_phase": (u64, [
        ("phases", u64), ("taps", u64), ("prototype", POINTER(f32)), ("prototype_len", u64),
        ("rows", POINTER(f32)), ("rows_len", u64), ("written", POINTER(u64)),
    ]),
    "gauge_raw_prototype_by_tap": (u64, [
        ("phases", u64), ("taps", u64), ("rows", POINTER(f32)), ("rows_len", u64),
        ("prototype", POINTER(f32)), ("prototype_len", u64), ("written", POINTER(u64)),
    ]),
    "gauge_raw_polyphase_decimate_q15": (u64, [
        ("src", POINTER(i16)), ("src_len", u64), ("coeffs", POINTER(i16)), ("coeffs_len", u64),
        ("decimation_factor", u64), ("dst", POINTER(i16)), ("dst_len", u64),
        ("written", POINTER(u64)), ("cuts", POINTER(u64)),
    ]),
    "gauge_raw_polyphase_interpolate_q15": (u64, [
        ("src", POINTER(i16)), ("src_len", u64), ("coeffs", POINTER(i16)), ("coeffs_len", u64),
        ("interpolation_factor", u64), ("dst", POINTER(i16)), ("dst_len", u64),
        ("written", POINTER(u64)), ("cuts", POINTER(u64)),
    ]),
    "gauge_raw_hbf_dec_reach": (u64, [
        ("depth", u64), ("reach", POINTER(u64)),
    ]),
    "gauge_raw_hbf_dec_reach_98": (u64, [
        ("depth", u64), ("reach", POINTER(u64)),
    ]),
    "gauge_raw_resample_linear_q15": (u64, [
        ("src", POINTER(i16)), ("src_len", u64), ("dst", POINTER(i16)), ("dst_len", u64),
        ("ratio_q16", i32), ("written", POINTER(u64)),
    ]),
    "gauge_raw_resample_linear_f32": (u64, [
        ("src", POINTER(f32)), ("src_len", u64), ("dst", POINTER(f32)), ("dst_len", u64),
        ("ratio", f32), ("written", POINTER(u64)),
    ]),
    "gauge_raw_sheet_count": (u64, [
        ("bytes", POINTER(u8)), ("bytes_len", u64), ("count", POINTER(u64)),
    ]),
    "gauge_raw_sheet_entry": (u64, [
        ("bytes", POINTER(u8)), ("bytes_len", u64), ("count", u64), ("k", u64),
        ("offset", POINTER(u64)), ("size", POINTER(u64)),
    ]),
    "gauge_raw_sheet_write": (u64, [
        ("joined", POINTER(u8)), ("joined_len", u64), ("lengths", POINTER(u64)),
        ("lengths_len", u64), ("span", POINTER(u8)), ("span_len", u64), ("written", POINTER(u64)),
    ]),
    "gauge_raw_cut_q15": (None, [
        ("sum", i64), ("value", POINTER(i16)), ("cut", POINTER(u64)),
    ]),
    "gauge_raw_q15_to_f32": (None, [
        ("bits", i16), ("value", POINTER(f32)),
    ]),
    "gauge_raw_hbf_dec_response_length": (u64, [
        ("depth", u64), ("length", POINTER(u64)),
    ]),
    "gauge_raw_hbf_int_response_length": (u64, [
        ("depth", u64), ("length", POINTER(u64)),
    ]),
    "gauge_raw_hbf_tap_table": (None, [
        ("taps", POINTER(f32 * limits.HBF_TABLE)),
    ]),
    "gauge_raw_hbf_tap_table_98": (None, [
        ("taps", POINTER(f32 * limits.HBF_TABLE_98)),
    ]),
}
