// The same on a computer: no time passes but in board_sleep, which writes the next half and interrupts.
#include "board.h"
#include "cell.h"
#include <stdio.h>

static uint16_t *circle;
static uint32_t half;
static uint32_t second;
static uint32_t flags;

void board_start_adc(uint16_t *places, uint32_t count) {
    circle = places;
    half = count / 2;
}

void board_stop_adc(void) {}

uint32_t board_adc_flags(void) {
    uint32_t set = flags;
    flags = 0;
    return set;
}

void board_hold_interrupts(void) {}

void board_let_interrupts(void) {}

void board_sleep(void) {
    cell_samples(circle + second * half, half);
    flags |= second == 0 ? ADC_HALF : ADC_FULL;
    second ^= 1;
    adc_interrupt();
}

void board_put(const char *text) {
    fputs(text, stdout);
}
