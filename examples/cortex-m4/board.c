// The board MPS2 AN386 of QEMU. It has no ADC and no DMA: a timer's interrupt stands for them, which writes half of the
// circle and then raises the interrupt of the DMA, so that the program sees what it would on a chip. Texts go out by
// semihosting, to QEMU or to a debugger.
#include "board.h"
#include "cell.h"

typedef struct {
    volatile uint32_t control, value, reload, interrupt;
} Timer;

#define TIMER ((Timer *)0x40000000)
#define SET_ENABLE ((volatile uint32_t *)0xe000e100)
#define SET_PENDING ((volatile uint32_t *)0xe000e200)
#define SYSTICK_CONTROL ((volatile uint32_t *)0xe000e010)
#define SYSTICK_RELOAD ((volatile uint32_t *)0xe000e014)
#define SYSTICK_VALUE ((volatile uint32_t *)0xe000e018)
// Of the processor's clock, between two halves; the run makes one firmware with too few.
#ifndef PERIOD
#define PERIOD 25000
#endif
#define SYS_WRITE0 0x04
#define SYS_EXIT_EXTENDED 0x20
#define STOPPED 0x20026

static uint16_t *circle;
static uint32_t half;
static uint32_t second;
static volatile uint32_t flags;

void board_start_adc(uint16_t *places, uint32_t count) {
    circle = places;
    half = count / 2;
    *SET_ENABLE = 1u << TIMER_INTERRUPT | 1u << ADC_INTERRUPT;
    TIMER->reload = PERIOD;
    TIMER->value = PERIOD;
    TIMER->control = 1u | 1u << 3;
}

void board_stop_adc(void) {
    TIMER->control = 0;
}

void timer_interrupt(void) {
    TIMER->interrupt = 1;
    cell_samples(circle + second * half, half);
    flags |= second == 0 ? ADC_HALF : ADC_FULL;
    second ^= 1;
    *SET_PENDING = 1u << ADC_INTERRUPT;
}

uint32_t board_adc_flags(void) {
    uint32_t set = flags;
    flags = 0;
    return set;
}

void board_hold_interrupts(void) {
    __asm volatile("cpsid i" ::: "memory");
}

void board_let_interrupts(void) {
    __asm volatile("cpsie i\nisb" ::: "memory");
}

void board_sleep(void) {
    __asm volatile("dsb\nwfi");
}

void board_start_ticks(void) {
    *SYSTICK_RELOAD = 0xffffff;
    *SYSTICK_VALUE = 0;
    *SYSTICK_CONTROL = 1u | 1u << 2;
}

uint32_t board_ticks(void) {
    return *SYSTICK_VALUE;
}

static void semihosting(uint32_t operation, const void *argument) {
    register uint32_t r0 __asm("r0") = operation;
    register const void *r1 __asm("r1") = argument;
    __asm volatile("bkpt 0xab" : "+r"(r0) : "r"(r1) : "memory");
}

void board_put(const char *text) {
    semihosting(SYS_WRITE0, text);
}

void board_end(int status) {
    const uint32_t ended[2] = {STOPPED, (uint32_t)status};
    semihosting(SYS_EXIT_EXTENDED, ended);
    for (;;) {
    }
}
