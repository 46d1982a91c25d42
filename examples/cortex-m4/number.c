#include "board.h"

void board_put_number(uint32_t number) {
    char text[11];
    char *at = text + 10;
    *at = '\0';
    do {
        *--at = (char)('0' + number % 10);
        number /= 10;
    } while (number != 0);
    board_put(at);
}
