#include "plain.h"

void plain_resamp_open(PlainResamp *s, uint32_t phases, uint32_t taps, const float *prototype, float step) {
    *s = (PlainResamp){.prototype = prototype, .phases = phases, .taps = taps, .mu = 1.0f, .step = step};
}

// The newest sample first.
static inline void put(PlainResamp *s, float x) {
    uint32_t at = s->at == 0 ? s->taps - 1 : s->at - 1;
    s->delay[at] = x;
    s->delay[at + s->taps] = x;
    s->at = at;
}

static inline float output(const PlainResamp *s) {
    float mu = s->mu < 0.0f ? 0.0f : s->mu;
    float q = (1.0f - mu) * (float)s->phases;
    uint32_t phase = (uint32_t)q < s->phases ? (uint32_t)q : 0;
    const float *first = s->prototype + phase, *second = phase + 1 < s->phases ? first + 1 : s->prototype;
    const float *window = s->delay + s->at;
    float here = 0.0f, next = 0.0f, part = q - (float)phase;
    for (uint32_t t = 0; t < s->taps; t++) {
        here = here + first[t * s->phases] * window[t];
        next = next + second[t * s->phases] * window[t];
    }
    return here * (1.0f - part) + next * part;
}

uint32_t plain_resamp_push(PlainResamp *s, float x, float *dst) {
    uint32_t written = 0;
    put(s, x);
    s->mu = s->mu - 1.0f;
    while (s->mu < 1.0f) {
        dst[written++] = output(s);
        s->mu = s->mu + s->step;
    }
    return written;
}

void plain_linear_f32(const float *src, uint32_t n, float *dst, uint32_t places, float ratio) {
    for (uint32_t i = 0; i < places; i++) {
        float place = (float)i * ratio;
        uint32_t k = (uint32_t)place;
        float part = place - (float)k;
        dst[i] = k < n ? src[k] * (1.0f - part) + src[k + 1 < n ? k + 1 : k] * part : src[n - 1];
    }
}
