#include "print.h"

static void put_hex(uint64_t number, int digits) {
    char text[17];
    for (int i = digits - 1; i >= 0; i--) {
        text[i] = "0123456789abcdef"[number & 15];
        number >>= 4;
    }
    text[digits] = 0;
    put(text);
}

static int digits_of(uint64_t number) {
    int digits = 1;
    while (digits < 16 && number >> (4 * digits) != 0) {
        digits++;
    }
    return digits;
}

static int is_nan(uint32_t bits) {
    return (bits & 0x7fffffff) > 0x7f800000;
}

// The bits of a value; machines differ in those of a NaN, so each is the same here.
static uint64_t bits_at(Kind kind, const void *values, uint64_t at) {
    if (kind == U8) {
        return ((const uint8_t *)values)[at];
    }
    if (kind == I16) {
        return ((const uint16_t *)values)[at];
    }
    if (kind == U64) {
        return ((const uint64_t *)values)[at];
    }
    uint32_t bits = ((const uint32_t *)values)[at];
    return kind == F32 && is_nan(bits) ? 0x7fc00000 : bits;
}

static void put_value(Kind kind, uint64_t bits) {
    put(" ");
    if (kind == F32 && is_nan((uint32_t)bits)) {
        put("nan");
    } else {
        put_hex(bits, kind == U64 ? digits_of(bits) : kind == U8 ? 2 : kind == I16 ? 4 : 8);
    }
}

void put_values(const char *name, Kind kind, const void *values, uint64_t count) {
    put(name);
    for (uint64_t i = 0, run; i < count; i += run) {
        uint64_t bits = bits_at(kind, values, i);
        run = 1;
        while (i + run < count && bits_at(kind, values, i + run) == bits) {
            run++;
        }
        put_value(kind, bits);
        if (run < 4) {
            run = 1;
        } else {
            put("*");
            put_hex(run, digits_of(run));
        }
    }
    put("\n");
}

void put_number(const char *name, uint64_t number) {
    put_values(name, U64, &number, 1);
}

void put_counts(const char *name, uint64_t refused, uint64_t taken, uint64_t written) {
    const uint64_t counts[3] = {refused, taken, written};
    put_values(name, U64, counts, 3);
}
