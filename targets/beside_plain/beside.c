#include "beside.h"
#include "board.h"
#include "gauge_half_band.h"
#include "samples.h"
#include <string.h>

int32_t samples_i32[SAMPLES];
int16_t samples_i16[SAMPLES];
float samples_f32[SAMPLES];
int16_t fir_taps[64];
float prototype[1024];
float table[TABLE];

static Outputs ours_made, plain_made;
static uint64_t refusals;

void accepted(uint64_t refused) {
    refusals |= refused;
}

static uint32_t instructions(Side run, Outputs *to, uint32_t *made) {
    memset(to, 0, sizeof *to);
    uint32_t before = board_ticks();
    *made = run(to);
    return ((before - board_ticks()) & 0xffffff) * TICK_INSTRUCTIONS;
}

void beside(const char *name, uint32_t per, Side ours, Side plain) {
    uint32_t made, made_plain;
    uint32_t counted = instructions(ours, &ours_made, &made);
    uint32_t counted_plain = instructions(plain, &plain_made, &made_plain);
    const uint32_t numbers[3] = {counted, counted_plain, per == 0 ? made : per};
    board_put(name);
    for (int k = 0; k < 3; k++) {
        board_put("|");
        board_put_number(numbers[k]);
    }
    board_put("\n");
    if (refusals != 0 || made != made_plain || memcmp(&ours_made, &plain_made, sizeof ours_made) != 0) {
        board_put("DIFFERENT\n");
        board_end(1);
    }
}

static void fill(void) {
    seed(20261127);
    for (int i = 0; i < SAMPLES; i++) {
        samples_i32[i] = sample_i16();
        samples_i16[i] = (int16_t)(sample_i16() >> 1);
    }
    fill_f32(ORDINARY, samples_f32, SAMPLES);
    fill_f32(ORDINARY, prototype, 1024);
    for (int i = 0; i < 64; i++) {
        fir_taps[i] = (int16_t)(sample_i16() >> 4);
    }
    gauge_raw_hbf_tap_table(table);
}

int main(void) {
    fill();
    board_start_ticks();
    lines();
    cic_converters();
    q15_converters();
    half_band_converters();
    resamplers();
    return 0;
}
