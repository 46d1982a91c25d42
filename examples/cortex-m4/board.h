// What the programs here need of a board. board.c has it for QEMU's MPS2 AN386; host.c has what main.c needs on a
// computer.
#ifndef BOARD_H
#define BOARD_H

#include <stdint.h>

// Numbers of the interrupts in the vectors.
#define TIMER_INTERRUPT 8
#define ADC_INTERRUPT 16

// The DMA writes samples of 12 bits to `count` places in a circle. When the first half is written, and when the second
// is, it interrupts: the program's adc_interrupt asks board_adc_flags which it is, and the flags are then clear.
#define ADC_HALF 1u
#define ADC_FULL 2u
void board_start_adc(uint16_t *places, uint32_t count);
void board_stop_adc(void);
uint32_t board_adc_flags(void);
void adc_interrupt(void);

// Interrupts are held off until they are let through; board_sleep ends with the next one, held off or not.
void board_hold_interrupts(void);
void board_let_interrupts(void);
void board_sleep(void);

// A counter of 24 bits that counts down; under `qemu -icount shift=0`, by one in 40 instructions.
#define TICK_INSTRUCTIONS 40
void board_start_ticks(void);
uint32_t board_ticks(void);

// A text, and a number in decimal.
void board_put(const char *text);
void board_put_number(uint32_t number);

// Ends the program, with success where the status is 0.
void board_end(int status);

#endif
