#include "plain.h"

// A sample through the parts up to the resampler: 1 where it made a level.
static inline int level_of(PlainLine *l, int32_t x, float *level) {
    int32_t sum;
    int16_t value;
    return plain_cic_sample(&l->cic, x, &sum) && plain_fir_sample(&l->fir, plain_cut(sum >> l->bits), &value) &&
           plain_stages_sample(&l->stages, (float)value / 32768.0f, level);
}

uint32_t plain_line_feed(PlainLine *l, const int32_t *src, uint32_t n, float *dst) {
    uint32_t written = 0;
    for (uint32_t i = 0; i < n; i++) {
        float level;
        if (!level_of(l, src[i], &level)) {
            continue;
        }
        if (l->resamp.phases == 0) {
            dst[written++] = level;
        } else {
            written += plain_resamp_push(&l->resamp, level, dst + written);
        }
    }
    return written;
}
