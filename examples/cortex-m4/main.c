// A firmware with a gauge line: the DMA puts samples of the ADC into a circle of two halves and interrupts at each. The
// interrupt says which half is ready; main copies it and feeds it to the line while the other one is written. All
// memory is static.
#include "board.h"
#include "gauge_line.h"
#include <stddef.h>

#define HALF 64
#define SPAN 2
// After so many halves the firmware ends, so that a run does: about 100 levels.
#define HALVES 54
// The ADC's middle, and what takes its 12 bits to the 16 of which a level is made.
#define MIDDLE 2048
#define SCALE 16

static uint16_t circle[2 * HALF];
static GaugeLine line;

// The half that is ready and not yet taken, and how often one was not taken before the next was ready.
static uint16_t *volatile ready;
static volatile uint32_t overruns;

void adc_interrupt(void) {
    uint32_t flags = board_adc_flags();
    if (ready != NULL || flags == (ADC_HALF | ADC_FULL)) {
        overruns += 1;
    }
    ready = flags & ADC_FULL ? circle + HALF : circle;
}

// Sleeps until a half is ready, and takes it. An interrupt between the question and the sleep still ends the sleep.
static const uint16_t *await_half(void) {
    board_hold_interrupts();
    while (ready == NULL) {
        board_sleep();
        board_let_interrupts();
        board_hold_interrupts();
    }
    const uint16_t *taken = ready;
    ready = NULL;
    board_let_interrupts();
    return taken;
}

// Three CIC stages with r = 8, a FIR of four equal taps and every second output, one half-band stage: 32 samples make a
// level.
static uint64_t open_line(void) {
    static const int16_t taps[4] = {8192, 8192, 8192, 8192};
    static const GaugeSettings settings = {.stages = 3, .r = 8, .factor = 2, .depth = 1};
    return GaugeLine_open(&line, &settings, taps, 4, NULL, 0);
}

// In millionths.
static void put_level(float level) {
    int32_t millionths = (int32_t)(level * 1000000.0f);
    board_put(millionths < 0 ? "-" : "");
    board_put_number((uint32_t)(millionths < 0 ? -millionths : millionths));
    board_put("\n");
}

static void put_levels(const float *levels, uint64_t written) {
    for (uint64_t i = 0; i < written; i++) {
        put_level(levels[i]);
    }
}

// Feeds one half, in as many feeds as its levels fill spans.
static uint64_t feed_half(const uint16_t *samples) {
    static int32_t piece[HALF];
    static float levels[SPAN];
    uint64_t fed = 0, taken, written, refused;
    for (uint32_t i = 0; i < HALF; i++) {
        piece[i] = ((int32_t)samples[i] - MIDDLE) * SCALE;
    }
    do {
        refused = GaugeLine_feed(&line, piece + fed, HALF - fed, levels, SPAN, &taken, &written);
        fed += taken;
        put_levels(levels, written);
    } while (refused == GAUGE_NOT_REFUSED && (fed < HALF || written == SPAN));
    return refused;
}

int main(void) {
    uint64_t refused = open_line();
    board_start_adc(circle, 2 * HALF);
    for (uint32_t i = 0; i < HALVES && refused == GAUGE_NOT_REFUSED; i++) {
        refused = feed_half(await_half());
    }
    board_stop_adc();
    board_put(gauge_refusal_name(refused));
    board_put(", ");
    board_put_number(overruns);
    board_put(" halves overrun\n");
    return refused != GAUGE_NOT_REFUSED || overruns != 0;
}
