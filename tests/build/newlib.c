// Runs a C example on the bare board with newlib, which writes by semihosting (rdimon): `example` is its main.
#include <stdio.h>

int example(void);
void initialise_monitor_handles(void);

int main(void) {
    initialise_monitor_handles();
    int status = example();
    return fflush(stdout) != 0 || status != 0;
}
