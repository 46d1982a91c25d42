// Whether floats are worked out as the proofs take them. The archive does not look: in another environment it gives
// other levels, and refuses nothing.
#ifndef GAUGE_FP_H
#define GAUGE_FP_H

#ifdef __cplusplus
extern "C" {
#endif

// 1 where this thread rounds to nearest, ties to even, keeps subnormal numbers as operands and as results, and works
// floats out as floats; else 0. A program that was linked with -Ofast or -ffast-math, that called fesetround, or that
// has set such bits of its processor's control register, has another environment.
static inline int gauge_fp_environment_ok(void) {
    // Volatile, so that each operation is done when the program runs. Each value is a float exactly.
    volatile float one = 1.0f, same = 1.0f, minus_one = -1.0f;
    volatile float half_step = 5.9604644775390625e-8f;           // 2^-24: half a step above 1
    volatile float more_than_half = 8.94069671630859375e-8f;     // 3 * 2^-25
    volatile float next = 1.00000011920928955078125f;            // 1 + 2^-23: a step above 1
    volatile float least_normal = 1.17549435082228750797e-38f;   // 2^-126
    volatile float least = 1.40129846432481707092e-45f;          // 2^-149, subnormal
    volatile float half = 0.5f, raise = 8388608.0f, zero = 0.0f; // raise: 2^23
    volatile float up = one + half_step, down = minus_one - half_step, near_next = one + more_than_half;
    volatile float halved = least_normal * half, raised = least * raise;
    int to_nearest = up == one && down == minus_one && near_next == next;
    int subnormals_kept = halved != zero && raised == least_normal;
    // In one expression: worked out in more bits, the sum keeps its last term.
    int as_floats = (one + half_step) - same == zero;
    return to_nearest && subnormals_kept && as_floats;
}

#ifdef __cplusplus
}
#endif

#endif
