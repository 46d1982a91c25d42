#include "cost.h"
#include "board.h"

int32_t samples_i32[SAMPLES];
int16_t samples_i16[SAMPLES];
float samples_f32[SAMPLES];

static void fill(void) {
    for (int32_t i = 0; i < SAMPLES; i++) {
        samples_i32[i] = i * 37 % 2000 - 1000;
        samples_i16[i] = (int16_t)samples_i32[i];
        samples_f32[i] = (float)samples_i32[i] / 32768.0f;
    }
}

void cost_row(const char *name, uint64_t (*feed)(void)) {
    uint64_t refused = feed();
    uint32_t before = board_ticks();
    refused |= feed();
    uint32_t ticks = (before - board_ticks()) & 0xffffff;
    if (refused != 0) {
        board_end(1);
    }
    board_put(name);
    board_put("|");
    board_put_number((ticks * TICK_INSTRUCTIONS + SAMPLES / 2) / SAMPLES);
    board_put("\n");
}

int main(void) {
    fill();
    board_start_ticks();
    costs();
    return 0;
}
