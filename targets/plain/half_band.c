#include "plain.h"

static const uint8_t FIRST[PLAIN_DEPTH] = {42, 38, 33, 23, 0}, TAPS[PLAIN_DEPTH] = {3, 4, 5, 10, 23};

void plain_hbf_open(PlainHbf *s, const float *taps, uint32_t m) {
    *s = (PlainHbf){.taps = taps, .m = m};
}

// A sample on the ring of 2M places, and the window's beginning.
static inline const float *put(PlainHbf *s, float x) {
    uint32_t at = s->at, places = 2 * s->m;
    s->even[at] = x;
    s->even[at + places] = x;
    s->at = ++at == places ? 0 : at;
    return s->even + s->at;
}

static inline float folded(const PlainHbf *s, const float *left, float sum) {
    const float *right = left + 2 * s->m - 1;
    for (uint32_t t = 0; t < s->m; t++) {
        sum = sum + s->taps[t] * (left[t] + *right--);
    }
    return sum;
}

float plain_hbf_pair(PlainHbf *s, float a, float b) {
    const float *left = put(s, a);
    uint32_t at = s->odd_at;
    float centre = s->odd[at];
    s->odd[at] = b;
    s->odd_at = ++at == s->m ? 0 : at;
    return 0.5f * folded(s, left, centre);
}

void plain_hbf_raise(PlainHbf *s, float x, float *dst) {
    const float *left = put(s, x);
    dst[0] = left[s->m];
    dst[1] = folded(s, left, 0.0f);
}

void plain_stages_open(PlainStages *s, const float *table, uint32_t depth) {
    *s = (PlainStages){.depth = depth};
    for (uint32_t k = 0; k < PLAIN_DEPTH; k++) {
        plain_hbf_open(&s->stages[k], table + FIRST[k], TAPS[k]);
    }
}

int plain_stages_sample(PlainStages *s, float x, float *value) {
    for (uint32_t k = 0; k < s->depth; k++) {
        s->has[k] ^= 1;
        if (s->has[k]) {
            s->held[k] = x;
            return 0;
        }
        x = plain_hbf_pair(&s->stages[k], s->held[k], x);
    }
    *value = x;
    return 1;
}

void plain_stages_open_raising(PlainStages *s, const float *table, uint32_t depth) {
    *s = (PlainStages){.depth = depth};
    for (uint32_t k = 0; k < PLAIN_DEPTH; k++) {
        plain_hbf_open(&s->stages[k], table + FIRST[PLAIN_DEPTH - 1 - k], TAPS[PLAIN_DEPTH - 1 - k]);
    }
}

// Stage k raises 2^k samples, each of which stands where its outputs end.
void plain_stages_raise(PlainStages *s, float x, float *dst) {
    uint32_t all = 1u << s->depth;
    dst[all - 1] = x;
    for (uint32_t k = 0; k < s->depth; k++) {
        uint32_t made = 2u << k;
        const float *src = dst + all - made / 2;
        float *to = dst + all - made;
        for (uint32_t i = 0; i < made / 2; i++) {
            float both[2];
            plain_hbf_raise(&s->stages[k], src[i], both);
            to[2 * i] = both[0];
            to[2 * i + 1] = both[1];
        }
    }
}
