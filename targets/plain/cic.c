#include "plain.h"

void plain_cic_open(PlainCic *s, uint32_t stages, uint32_t r) {
    *s = (PlainCic){.stages = stages, .r = r};
}

static inline uint32_t integrated(PlainCic *s, uint32_t val) {
    for (uint32_t k = 0; k < s->stages; k++) {
        val += s->integrators[k];
        s->integrators[k] = val;
    }
    return val;
}

static inline uint32_t combed(PlainCic *s, uint32_t val) {
    for (uint32_t k = 0; k < s->stages; k++) {
        uint32_t difference = val - s->combs[k];
        s->combs[k] = val;
        val = difference;
    }
    return val;
}

static inline int sample(PlainCic *s, int32_t x, int32_t *sum) {
    uint32_t val = integrated(s, (uint32_t)x);
    if (++s->counter < s->r) {
        return 0;
    }
    s->counter = 0;
    *sum = (int32_t)combed(s, val);
    return 1;
}

int plain_cic_sample(PlainCic *s, int32_t x, int32_t *sum) {
    return sample(s, x, sum);
}

uint32_t plain_cic_block(PlainCic *s, const int32_t *src, uint32_t n, int32_t *dst) {
    uint32_t written = 0;
    for (uint32_t i = 0; i < n; i++) {
        written += (uint32_t)sample(s, src[i], &dst[written]);
    }
    return written;
}

void plain_cic_raise(PlainCic *s, int32_t x, int32_t *dst) {
    uint32_t val = combed(s, (uint32_t)x);
    for (uint32_t i = 0; i < s->r; i++) {
        dst[i] = (int32_t)integrated(s, val);
        val = 0;
    }
}
