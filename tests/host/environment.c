// gauge_fp_environment_ok is 1 as a program starts, 0 in each other rounding mode and where subnormal numbers are taken
// or made as 0, and 1 again after that. With an argument: prints what it says at the start.
#include "gauge_line.h"
#include <fenv.h>
#include <stdio.h>
#if defined(__x86_64__)
#include <xmmintrin.h>
#endif

static int failures = 0;

static void check(int expected, const char *where) {
    if (gauge_fp_environment_ok() != expected) {
        printf("%s: not %d\n", where, expected);
        failures++;
    }
}

static void rounding(void) {
    static const int modes[] = {FE_UPWARD, FE_DOWNWARD, FE_TOWARDZERO};
    static const char *const names[] = {"upward", "downward", "toward zero"};
    for (int i = 0; i < 3; i++) {
        if (fesetround(modes[i]) != 0) {
            printf("%s: cannot be set\n", names[i]);
            failures++;
        }
        check(0, names[i]);
        fesetround(FE_TONEAREST);
        check(1, "back to nearest");
    }
}

#if defined(__x86_64__)
static void subnormals(void) {
    static const unsigned bits[] = {0x8000, 0x0040, 0x8040};
    static const char *const names[] = {"results as 0", "operands as 0", "both as 0"};
    const unsigned kept = _mm_getcsr();
    for (int i = 0; i < 3; i++) {
        _mm_setcsr(kept | bits[i]);
        check(0, names[i]);
        _mm_setcsr(kept);
        check(1, "back to subnormals");
    }
}
#endif

int main(int count, char **arguments) {
    (void)arguments;
    if (count > 1) {
        printf("%d\n", gauge_fp_environment_ok());
        return 0;
    }
    check(1, "at the start");
    rounding();
#if defined(__x86_64__)
    subnormals();
#endif
    return failures != 0;
}
