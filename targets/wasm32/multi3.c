// The product of 128 bits, which the compiler calls where a product of 64 bits must not overflow, and which no library
// gives it on wasm32.
#include <stdint.h>

__extension__ typedef unsigned __int128 uint128_t;

// By halves of 32 bits, as on paper.
static uint128_t product(uint64_t a, uint64_t b) {
    uint64_t low = (a & UINT32_MAX) * (b & UINT32_MAX);
    uint64_t middle = (a >> 32) * (b & UINT32_MAX) + (low >> 32);
    uint64_t other = (a & UINT32_MAX) * (b >> 32) + (middle & UINT32_MAX);
    uint64_t high = (a >> 32) * (b >> 32) + (middle >> 32) + (other >> 32);
    return (uint128_t)high << 64 | other << 32 | (low & UINT32_MAX);
}

uint128_t __multi3(uint128_t a, uint128_t b) {
    uint64_t a_high = (uint64_t)(a >> 64), b_high = (uint64_t)(b >> 64);
    uint64_t across = a_high * (uint64_t)b + (uint64_t)a * b_high;
    return product((uint64_t)a, (uint64_t)b) + ((uint128_t)across << 64);
}
