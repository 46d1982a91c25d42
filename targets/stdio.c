// The program where there is a C library: to the standard output.
#include "outputs.h"
#include "print.h"
#include <stdio.h>

void put(const char *text) {
    fputs(text, stdout);
}

int main(void) {
    outputs();
    return 0;
}
