#include "plain.h"

int16_t plain_cut(int32_t sum) {
    return (int16_t)(sum > 32767 ? 32767 : sum < -32768 ? -32768 : sum);
}

// Each product rounded down by itself.
static inline int32_t sum_of(const int16_t *src, const int16_t *taps, uint32_t tap_count, uint32_t stride) {
    int32_t sum = 0;
    for (uint32_t t = 0; t < tap_count; t++) {
        sum += (src[t] * taps[t * stride]) >> 15;
    }
    return sum;
}

void plain_fir_open(PlainFir *s, const int16_t *taps, uint32_t tap_count, uint32_t factor) {
    *s = (PlainFir){.taps = taps, .tap_count = tap_count, .factor = factor, .wait = tap_count};
}

int plain_fir_sample(PlainFir *s, int16_t x, int16_t *value) {
    uint32_t at = s->at;
    if (s->tap_count == 0) {
        *value = x;
        return 1;
    }
    s->delay[at] = x;
    s->delay[at + s->tap_count] = x;
    s->at = ++at == s->tap_count ? 0 : at;
    if (--s->wait != 0) {
        return 0;
    }
    s->wait = s->factor;
    *value = plain_cut(sum_of(s->delay + s->at, s->taps, s->tap_count, 1));
    return 1;
}

uint32_t plain_decimate_q15(
    const int16_t *src, uint32_t n, const int16_t *taps, uint32_t tap_count, uint32_t factor, int16_t *dst
) {
    uint32_t written = 0;
    for (uint32_t i = 0; i + tap_count <= n; i += factor) {
        dst[written++] = plain_cut(sum_of(src + i, taps, tap_count, 1));
    }
    return written;
}

uint32_t plain_interpolate_q15(
    const int16_t *src, uint32_t n, const int16_t *taps, uint32_t tap_count, uint32_t factor, int16_t *dst
) {
    uint32_t written = 0, in_phase = tap_count / factor;
    for (uint32_t i = 0; i + in_phase <= n; i++) {
        for (uint32_t p = 0; p < factor; p++) {
            dst[written++] = plain_cut(sum_of(src + i, taps + p, in_phase, factor) * (int32_t)factor);
        }
    }
    return written;
}

void plain_linear_q15(const int16_t *src, uint32_t n, int16_t *dst, uint32_t places, uint32_t ratio) {
    uint32_t whole = 0, part = 0;
    for (uint32_t i = 0; i < places; i++) {
        int32_t left = src[whole < n ? whole : n - 1], right = src[whole + 1 < n ? whole + 1 : n - 1];
        dst[i] = (int16_t)(left + (int32_t)(((int64_t)(right - left) * (int32_t)part) >> 16));
        part += ratio & 65535;
        whole += (ratio >> 16) + (part >> 16);
        part &= 65535;
    }
}
