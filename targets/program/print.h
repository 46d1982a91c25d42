// What the test program prints: lines of a name and values, all in hex, every NaN as `nan`.
#ifndef PRINT_H
#define PRINT_H

#include <stdint.h>

typedef enum { U8, I16, I32, U64, F32 } Kind;

// The machine's own: appends a text to the output.
void put(const char *text);

// A line of values; four equal ones or more in a row are one value, a star and how many they are.
void put_values(const char *name, Kind kind, const void *values, uint64_t count);

void put_number(const char *name, uint64_t number);

// What a block or feed answered.
void put_counts(const char *name, uint64_t refused, uint64_t taken, uint64_t written);

#endif
