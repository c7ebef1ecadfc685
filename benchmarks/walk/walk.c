// The side in C. This file is built once for each optimization level, with WALKS and NOTHING as the names of its
// functions.
#include "walk.h"

walks WALKS, NOTHING;

uint64_t WALKS(const uint64_t *table, size_t size, const uint64_t *addresses, size_t count) {
    uint64_t sum = 0;
    for (size_t i = 0; i < count; i++) sum = add_to(sum, pack_walk(walk_tables(table, size, addresses[i])));
    return sum;
}

// Reads the addresses, sums them and walks nowhere.
uint64_t NOTHING(const uint64_t *table, size_t size, const uint64_t *addresses, size_t count) {
    uint64_t sum = 0;
    (void)table, (void)size;
    for (size_t i = 0; i < count; i++) sum = add_to(sum, addresses[i]);
    return sum;
}
