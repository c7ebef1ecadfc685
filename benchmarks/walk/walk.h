// The page walk in plain C, by the rules of crates/walk, and the sum over its results. The proved side,
// crates/bench_walk, packs and sums in the same way.
#include <stdbool.h>
#include <stddef.h>
#include <stdint.h>

enum { ENTRIES = 512, PAGE_BIT = 128, RIGHTS = 3 };
#define NUMBER_BITS 0x000FFFFFFFFFF000u

enum end { MAPPED, UNMAPPED, NOT_LENT };

struct walk {
    enum end end;
    unsigned visits, exponent;
    uint64_t base;
    bool r, w;
};

static inline struct walk no_page(enum end end, unsigned visits) { return (struct walk){.end = end, .visits = visits}; }

static inline struct walk walk_tables(const uint64_t *table, size_t size, uint64_t address) {
    uint64_t k = 0, rights = RIGHTS;
    unsigned visits = 0;
    if (address >> 48) return no_page(UNMAPPED, visits);
    for (unsigned shift = 39;; shift -= 9) {
        if (size < ENTRIES * (k + 1)) return no_page(NOT_LENT, visits);
        uint64_t entry = table[ENTRIES * k + (address >> shift) % ENTRIES];
        visits++;
        if (!(entry & RIGHTS)) return no_page(UNMAPPED, visits);
        rights &= entry;
        if (shift == 12 || (shift < 39 && entry & PAGE_BIT))
            return (struct walk){MAPPED, visits, shift, (entry & NUMBER_BITS) >> shift << shift, rights & 1, rights >> 1};
        k = (entry & NUMBER_BITS) >> 12;
    }
}

static inline uint64_t add_to(uint64_t sum, uint64_t number) { return (sum >> 1 | sum << 63) + number; }

static inline uint64_t pack_walk(struct walk x) {
    uint64_t visits = x.visits * 256;
    if (x.end == MAPPED) return x.base | x.exponent | x.r * 64 | x.w * 128 | visits;
    return (x.end == NOT_LENT) * 2048 | visits;
}

// A measured side: the sum over the walks for these addresses.
typedef uint64_t walks(const uint64_t *table, size_t size, const uint64_t *addresses, size_t count);
