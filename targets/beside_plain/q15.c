// The 16-bit converters, and linear resampling in either kind. Blocks of a FIR overlap by its window, as in a stream.
#include "beside.h"
#include "gauge_q15.h"
#include "gauge_resampler.h"
#include "plain.h"

static GaugeFirDecimator fir;
static PlainFir plain;
static uint32_t tap_count, factor;

static uint32_t samples(Outputs *to) {
    uint32_t made = 0;
    for (uint32_t i = 0; i < SAMPLES; i++) {
        uint64_t one, cut;
        int16_t value;
        accepted(GaugeFirDecimator_process_sample(&fir, samples_i16[i], &one, &value, &cut));
        if (one != 0) {
            to->values[made++] = value;
        }
    }
    return made;
}

static uint32_t samples_plain(Outputs *to) {
    uint32_t made = 0;
    for (uint32_t i = 0; i < SAMPLES; i++) {
        made += (uint32_t)plain_fir_sample(&plain, samples_i16[i], &to->values[made]);
    }
    return made;
}

static uint32_t thinned(Outputs *to) {
    uint32_t made = 0, len = BLOCK + tap_count - factor;
    for (uint32_t i = 0; i + len <= SAMPLES; i += BLOCK) {
        uint64_t written, cuts;
        accepted(gauge_raw_polyphase_decimate_q15(
            samples_i16 + i, len, fir_taps, tap_count, factor, to->values + made, BLOCK, &written, &cuts
        ));
        made += (uint32_t)written;
    }
    return made;
}

static uint32_t thinned_plain(Outputs *to) {
    uint32_t made = 0, len = BLOCK + tap_count - factor;
    for (uint32_t i = 0; i + len <= SAMPLES; i += BLOCK) {
        made += plain_decimate_q15(samples_i16 + i, len, fir_taps, tap_count, factor, to->values + made);
    }
    return made;
}

static uint32_t raised(Outputs *to) {
    uint32_t made = 0, on = BLOCK / factor, len = on + tap_count / factor - 1;
    for (uint32_t i = 0; i + len <= SAMPLES; i += on) {
        uint64_t written, cuts;
        accepted(gauge_raw_polyphase_interpolate_q15(
            samples_i16 + i, len, fir_taps, tap_count, factor, to->values + made, BLOCK, &written, &cuts
        ));
        made += (uint32_t)written;
    }
    return made;
}

static uint32_t raised_plain(Outputs *to) {
    uint32_t made = 0, on = BLOCK / factor, len = on + tap_count / factor - 1;
    for (uint32_t i = 0; i + len <= SAMPLES; i += on) {
        made += plain_interpolate_q15(samples_i16 + i, len, fir_taps, tap_count, factor, to->values + made);
    }
    return made;
}

static uint32_t between_q15(Outputs *to) {
    for (uint32_t i = 0; i < SAMPLES; i += BLOCK) {
        uint64_t written;
        accepted(gauge_raw_resample_linear_q15(samples_i16 + i, BLOCK, to->values + i, BLOCK, 58982, &written));
    }
    return SAMPLES;
}

static uint32_t between_q15_plain(Outputs *to) {
    for (uint32_t i = 0; i < SAMPLES; i += BLOCK) {
        plain_linear_q15(samples_i16 + i, BLOCK, to->values + i, BLOCK, 58982);
    }
    return SAMPLES;
}

static uint32_t between_f32(Outputs *to) {
    for (uint32_t i = 0; i < SAMPLES; i += BLOCK) {
        uint64_t written;
        accepted(gauge_raw_resample_linear_f32(samples_f32 + i, BLOCK, to->levels + i, BLOCK, 0.9f, &written));
    }
    return SAMPLES;
}

static uint32_t between_f32_plain(Outputs *to) {
    for (uint32_t i = 0; i < SAMPLES; i += BLOCK) {
        plain_linear_f32(samples_f32 + i, BLOCK, to->levels + i, BLOCK, 0.9f);
    }
    return SAMPLES;
}

static void open(uint32_t count, uint32_t by) {
    tap_count = count;
    factor = by;
    accepted(GaugeFirDecimator_new(&fir, fir_taps, tap_count, factor));
    plain_fir_open(&plain, fir_taps, tap_count, factor);
}

void q15_converters(void) {
    open(32, 2);
    beside("`FirDecimator` T=32 D=2, by sample", SAMPLES, samples, samples_plain);
    beside("`polyphase_decimate_q15` T=32 D=2, blocks of 64", SAMPLES, thinned, thinned_plain);
    open(64, 1);
    beside("`FirDecimator` T=64 D=1, by sample", SAMPLES, samples, samples_plain);
    beside("`polyphase_decimate_q15` T=64 D=1, blocks of 64", SAMPLES, thinned, thinned_plain);
    open(32, 4);
    beside("`polyphase_interpolate_q15` T=32 L=4, 64 outputs", 0, raised, raised_plain);
    beside("`resample_linear_q15` ratio 0.9, 64 outputs", 0, between_q15, between_q15_plain);
    beside("`resample_linear_f32` ratio 0.9, 64 outputs", 0, between_f32, between_f32_plain);
}
