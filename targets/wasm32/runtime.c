// What the program needs on wasm32 and no library gives it: `put`, which is JavaScript's.
#include "print.h"

__attribute__((import_module("host"), import_name("put"))) void host_put(const char *text);

void put(const char *text) {
    host_put(text);
}
