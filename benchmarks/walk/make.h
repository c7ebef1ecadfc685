// Makes the tables, the addresses and the packets. Random draws occur only where C fixes their order, so that every
// compiler makes the same.
#include <stdlib.h>
#include "walk.h"

enum { TABLES = 64, SIZE = TABLES * ENTRIES, PACKET = 16 };

// The tables of each level, from the first level down: the first of them, and at the end the number of tables.
static const unsigned first_table[] = {0, 1, 8, 24, TABLES};
enum { LAST_LEVEL = 3 };

static uint64_t seed = 20261116;

static unsigned pick(unsigned n) {
    seed = seed * 6364136223846793005 + 1442695040888963407;
    return (seed >> 33) % n;
}
static bool one_in(unsigned n) { return pick(n) == 0; }
static uint64_t pick64(void) {
    uint64_t high = pick(1u << 31), middle = pick(1u << 31), low = pick(1u << 31);
    return high << 33 ^ middle << 20 ^ low;
}

static unsigned pick_rights(void) {
    if (one_in(64)) return 0;
    if (one_in(8)) return 1;
    return one_in(16) ? 2 : 3;
}

static uint64_t pick_table(int level) {
    if (one_in(64)) return TABLES + pick(1000);
    return first_table[level] + pick(first_table[level + 1] - first_table[level]);
}

static bool pick_page(int level) { return level == 1 ? one_in(16) : one_in(8); }

// The bits that mean nothing are random; so is bit 7 at the first and the last level.
static uint64_t pick_entry(int level) {
    uint64_t entry = (pick64() & ~(uint64_t)RIGHTS) | pick_rights();
    if (level == LAST_LEVEL) return entry;
    if (level > 0) {
        entry &= ~(uint64_t)PAGE_BIT;
        if (pick_page(level)) return entry | PAGE_BIT;
    }
    return (entry & ~NUMBER_BITS) | pick_table(level + 1) << 12;
}

static void make_tables(uint64_t *table) {
    for (int level = 0; level <= LAST_LEVEL; level++)
        for (unsigned i = first_table[level] * ENTRIES; i < first_table[level + 1] * ENTRIES; i++) table[i] = pick_entry(level);
}

// Bit 32 is set, so that a packet for any of them has the same length.
static uint64_t pick_address(void) {
    uint64_t address = pick64() | (uint64_t)1 << 32;
    return one_in(64) ? address | (uint64_t)1 << 48 : address % ((uint64_t)1 << 48);
}

// A Translation Request for 2 DWORDs, with AT 01 and an address of 64 bits.
static void make_packet(uint8_t *b, uint64_t address) {
    uint8_t head[] = {0x20, 0, 0x04, 2, 0x12, 0x34, (uint8_t)pick(32), 0xFF};
    for (int i = 0; i < 8; i++) b[i] = head[i];
    for (int i = 0; i < 8; i++) b[8 + i] = (uint8_t)((address & ~(uint64_t)4095) >> 8 * (7 - i));
}
