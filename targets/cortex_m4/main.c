// The program on the bare board, whose texts go out as the board's do.
#include "board.h"
#include "outputs.h"
#include "print.h"

void put(const char *text) {
    board_put(text);
}

int main(void) {
    outputs();
    return 0;
}
