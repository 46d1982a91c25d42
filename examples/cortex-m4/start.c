// The start of a program on the bare Cortex-M4F: the vectors, the float unit switched on, the memories filled, main.
// What main answers ends the program, and so does a fault, with 1, so that it does not pass for a run.
#include "board.h"

extern uint32_t data_in_rom[], data_start[], data_end[], bss_start[], bss_end[], stack_top[];
int main(void);

#define COPROCESSOR_ACCESS ((volatile uint32_t *)0xe000ed88)
#define INTERRUPTS 32

void reset(void) {
    *COPROCESSOR_ACCESS |= 0xfu << 20;
    __asm volatile("dsb\nisb");
    uint32_t *from = data_in_rom;
    for (uint32_t *to = data_start; to < data_end; to++) {
        *to = *from++;
    }
    for (uint32_t *to = bss_start; to < bss_end; to++) {
        *to = 0;
    }
    board_end(main());
}

static void fault(void) {
    board_end(1);
}

// A program has the handlers that it needs; the others are faults.
__attribute__((weak, alias("fault"))) void timer_interrupt(void);
__attribute__((weak, alias("fault"))) void adc_interrupt(void);

__attribute__((section(".vectors"), used)) static void (*const vectors[16 + INTERRUPTS])(void) = {
    (void (*)(void))stack_top,
    reset,
    fault,
    fault,
    fault,
    fault,
    fault,
    [16 + TIMER_INTERRUPT] = timer_interrupt,
    [16 + ADC_INTERRUPT] = adc_interrupt,
};
