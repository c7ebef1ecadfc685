// main WALKS RUNS: walks for random addresses with the proved walk and with the one in C, compares their sums, and
// prints both times; then the time of a whole translation.
#include <stdio.h>
#include <time.h>
#include "make.h"

walks c_O2, c_O3, proved_walks;
walks c_O2_nothing; // walks nowhere
uint64_t proved_translations(uint16_t host, const uint8_t *packets, size_t packets_size, const uint64_t *table, size_t size, uint8_t *out, size_t out_size);

struct side {
    const char *name;
    walks *walks;
    double seconds;
};

static struct side sides[] = {
    {"C, -O2", c_O2, 0},
    {"C, -O3", c_O3, 0},
    {"proved walk", proved_walks, 0},
};
enum { SIDES = sizeof sides / sizeof *sides };

struct addresses {
    uint64_t *list;
    size_t count;
};

static uint64_t table[SIZE];

// Processor time, so that other work on the machine counts less.
static double now(void) {
    struct timespec t;
    clock_gettime(CLOCK_PROCESS_CPUTIME_ID, &t);
    return (double)t.tv_sec + (double)t.tv_nsec / 1e9;
}

static double least(double a, double before) { return before == 0 || a < before ? a : before; }

static double seconds(walks *w, struct addresses a) {
    double from = now();
    w(table, SIZE, a.list, a.count);
    return now() - from;
}

// The sides take turns, so that a slow moment of the machine affects all of them.
static void measure(struct addresses a, int runs) {
    for (int i = 0; i < SIDES; i++) sides[i].seconds = 0;
    for (int n = 0; n < runs; n++)
        for (int i = 0; i < SIDES; i++) sides[i].seconds = least(seconds(sides[i].walks, a), sides[i].seconds);
}

static void stop(const char *what) {
    printf("%s\n", what);
    exit(1);
}

static uint64_t hold_together(struct addresses a) {
    uint64_t sum = sides[0].walks(table, SIZE, a.list, a.count);
    for (int i = 1; i < SIDES; i++)
        if (sides[i].walks(table, SIZE, a.list, a.count) != sum) stop("The sides differ.");
    return sum;
}

enum kind { PAGE_4K, PAGE_2M, PAGE_1G, NO_RIGHTS, HIGH, MISSING, KINDS };
static const char *kind_names[KINDS] = {"page of 4 KiB", "page of 2 MiB", "page of 1 GiB", "an entry without rights", "more than 48 bits", "a table not lent"};

static enum kind kind_of(struct walk w) {
    if (w.end == MAPPED) return w.exponent == 12 ? PAGE_4K : w.exponent == 21 ? PAGE_2M : PAGE_1G;
    if (w.end == NOT_LENT) return MISSING;
    return w.visits ? NO_RIGHTS : HIGH;
}

static struct addresses make_addresses(size_t count) {
    struct addresses a = {malloc(count * sizeof *a.list), count};
    if (!a.list) stop("No memory for the addresses.");
    for (size_t i = 0; i < count; i++) a.list[i] = pick_address();
    return a;
}

static size_t count_kind(struct addresses a, enum kind k) {
    size_t n = 0;
    for (size_t i = 0; i < a.count; i++) n += kind_of(walk_tables(table, SIZE, a.list[i])) == k;
    return n;
}

// The addresses of one kind, as often as needed to be as many as all of them.
static void repeat_kind(struct addresses all, enum kind k, struct addresses some) {
    for (size_t n = 0; n < some.count;)
        for (size_t i = 0; i < all.count && n < some.count; i++)
            if (kind_of(walk_tables(table, SIZE, all.list[i])) == k) some.list[n++] = all.list[i];
}

static void show_kinds(struct addresses a) {
    size_t by_visits[5] = {0}, neither = 0;
    for (size_t i = 0; i < a.count; i++) {
        struct walk w = walk_tables(table, SIZE, a.list[i]);
        by_visits[w.visits]++;
        neither += w.end == MAPPED && !w.r && !w.w;
    }
    printf("Ends:");
    for (int k = 0; k < KINDS; k++) printf("%s %s %zu", k ? "," : "", kind_names[k], count_kind(a, k));
    printf("; of the pages %zu with neither right.\nEntries read:", neither);
    for (int v = 0; v < 5; v++) printf("%s %d: %zu", v ? "," : "", v, by_visits[v]);
    printf(".\n");
}

static void show_sides(struct addresses a) {
    printf("\n%-20s %9s %14s %14s %14s\n", "side", "ns/walk", "walks/second", "x C, -O2", "x C, -O3");
    for (int i = 0; i < SIDES; i++) {
        double t = sides[i].seconds;
        printf("%-20s %9.1f %14.0f %14.2f %14.2f\n", sides[i].name, 1e9 * t / (double)a.count, (double)a.count / t, t / sides[0].seconds, t / sides[1].seconds);
    }
}

static void show_nothing(struct addresses a, int runs) {
    double t = 0;
    for (int n = 0; n < runs; n++) t = least(seconds(c_O2_nothing, a), t);
    printf("Every side's time has the reading of the addresses and the sum in it: %.1f ns a walk in C.\n", 1e9 * t / (double)a.count);
}

static void show_by_kind(struct addresses all, int runs) {
    struct addresses some = {malloc(all.count * sizeof *some.list), all.count};
    if (!some.list) stop("No memory for the addresses.");
    printf("\nBy end, ns a walk:\n%-28s %9s %9s %12s\n", "", "C, -O2", "C, -O3", "proved walk");
    for (int k = 0; k < KINDS; k++) {
        if (!count_kind(all, k)) stop("Too few walks: they do not end in every way.");
        repeat_kind(all, k, some);
        hold_together(some);
        measure(some, runs);
        double per = 1e9 / (double)some.count;
        printf("%-28s %9.1f %9.1f %12.1f\n", kind_names[k], per * sides[0].seconds, per * sides[1].seconds, per * sides[2].seconds);
    }
    free(some.list);
}

// What the replies sum up to if each is of the kind and the length that the walk leads to.
static uint64_t expected_replies(struct addresses a) {
    uint64_t sum = 0;
    for (size_t i = 0; i < a.count; i++) {
        struct walk w = walk_tables(table, SIZE, a.list[i]);
        sum = add_to(sum, (w.end == NOT_LENT ? 2048 | 12 : 20) | w.visits * 256);
    }
    return sum;
}

static void show_translations(struct addresses a, int runs) {
    uint8_t *packets = malloc(a.count * PACKET), out[64] = {0};
    if (!packets) stop("No memory for the packets.");
    for (size_t i = 0; i < a.count; i++) make_packet(packets + i * PACKET, a.list[i]);
    uint64_t expected = expected_replies(a);
    double t = 0;
    for (int n = 0; n < runs; n++) {
        double from = now();
        uint64_t sum = proved_translations(0x0100, packets, a.count * PACKET, table, SIZE, out, sizeof out);
        t = least(now() - from, t);
        if (sum != expected) stop("The replies are not what the walks lead to.");
    }
    printf("\nA translation, from a packet of 16 bytes to the reply of 20 or 12: %.1f ns a call. Every packet was replied to.\n", 1e9 * t / (double)a.count);
    free(packets);
}

int main(int argc, char **argv) {
    size_t count = argc > 1 ? strtoul(argv[1], 0, 10) : 1000000;
    int runs = argc > 2 ? atoi(argv[2]) : 3;
    make_tables(table);
    struct addresses all = make_addresses(count);
    uint64_t sum = hold_together(all);
    printf("%zu walks, the same for each side; %d tables of %d entries. Best of %d runs.\n", count, TABLES, ENTRIES, runs);
    show_kinds(all);
    printf("All sides gave the same ends, bases, exponents, rights and counts (sum %016llx).\n", (unsigned long long)sum);
    measure(all, runs);
    show_sides(all);
    show_nothing(all, runs);
    show_by_kind(all, runs);
    show_translations(all, runs);
    return 0;
}
