// main CALLS RUNS: replays the mix on the proved card and on the model in C, compares
// their sums, and prints both times.
#include <time.h>
#include "make.h"

replay c_O2, c_O3, card_by_call, card_by_single_calls;
replay c_O2_nothing; // takes the script apart and calls nothing

struct side {
    const char *name;
    replay *replay;
    double seconds;
};

static struct side sides[] = {
    {"C, -O2", c_O2, 0},
    {"C, -O3", c_O3, 0},
    {"card, single calls", card_by_single_calls, 0},
    {"card, by `call`", card_by_call, 0},
};
enum { SIDES = sizeof sides / sizeof *sides };

static uint64_t run(replay *r, const struct script *s, bool checked) {
    uint8_t out[OUT] = {0};
    return r(s->numbers, 3 * s->calls, s->pool, s->pool_size, out, OUT, checked);
}

// Processor time, so that other work on the machine counts less.
static double seconds(replay *r, const struct script *s) {
    struct timespec from, to;
    clock_gettime(CLOCK_PROCESS_CPUTIME_ID, &from);
    run(r, s, false);
    clock_gettime(CLOCK_PROCESS_CPUTIME_ID, &to);
    return (double)(to.tv_sec - from.tv_sec) + (double)(to.tv_nsec - from.tv_nsec) / 1e9;
}

static double least(replay *r, const struct script *s, double before) {
    double t = seconds(r, s);
    return before == 0 || t < before ? t : before;
}

// The sides take turns, so that a slow moment of the machine affects all of them.
static void measure(const struct script *s, int runs) {
    for (int i = 0; i < SIDES; i++) sides[i].seconds = 0;
    for (int n = 0; n < runs; n++)
        for (int i = 0; i < SIDES; i++) sides[i].seconds = least(sides[i].replay, s, sides[i].seconds);
}

// All sides gave the same answers, lengths, bytes and states.
static uint64_t hold_together(const char *name, const struct script *s) {
    uint64_t sum = run(sides[0].replay, s, true);
    for (int i = 1; i < SIDES; i++)
        if (run(sides[i].replay, s, true) != sum) {
            printf("%s: %s and %s differ\n", name, sides[i].name, sides[0].name);
            exit(1);
        }
    return sum;
}

static void show_mix(const struct maker *m) {
    static const char *calls[CALLS] = {"reset", "enable", "disable", "ask", "read", "write", "receive", "drain", "pages on", "pages off", "page request"};
    static const char *words[] = {"refused", "done", "tag", "count", "discarded", "more", "filled", "aborted", "switched off", "payload, more", "payload, last", "read failed"};
    static const char *events[EVENTS] = {"reads by a cache entry", "writes by a cache entry", "asks filled by one packet", "asks filled by a second packet", "invalidations", "of these such that a read is noted", "drains that sent", "drains held back by a read", "PRG Responses"};
    printf("Calls:");
    for (int i = 0; i < CALLS; i++) printf("%s %s %zu", i ? "," : "", calls[i], m->by_call[i]);
    printf(".\nAnswers:");
    for (int i = 0; i <= READ_FAILED; i++) printf("%s %s %zu", i ? "," : "", words[i], m->by_word[i]);
    printf(".\nRefusals:");
    for (int i = 1; i <= NO_ROOM; i++) printf("%s %d: %zu", i > 1 ? "," : "", i, m->by_number[i]);
    printf(".\nReached:");
    for (int i = 0; i < EVENTS; i++) printf("%s %s %zu", i ? "," : "", events[i], m->by_event[i]);
    printf(".\n");
}

int main(int argc, char **argv) {
    size_t calls = argc > 1 ? strtoul(argv[1], 0, 10) : 1000000;
    int runs = argc > 2 ? atoi(argv[2]) : 3;
    static struct maker m;
    make_mix(&m, calls);
    uint64_t sum = hold_together("the mix", &m.script);
    printf("%zu calls, the same for each side; %zu bytes of packets and payload. Best of %d runs.\n", calls, m.script.pool_size, runs);
    show_mix(&m);
    for (int i = 0; i < EVENTS; i++)
        if (!m.by_event[i]) printf("The mix is too short: it does not reach all that is listed.\n");
    printf("All sides gave the same answers, lengths, bytes and states (sum %08x).\n", (unsigned)sum);
    measure(&m.script, runs);
    printf("\n%-20s %9s %14s %14s %14s\n", "side", "ns/call", "calls/second", "x C, -O2", "x C, -O3");
    for (int i = 0; i < SIDES; i++) {
        double t = sides[i].seconds;
        printf("%-20s %9.1f %14.0f %14.2f %14.2f\n", sides[i].name, 1e9 * t / (double)calls, (double)calls / t, t / sides[0].seconds, t / sides[1].seconds);
    }
    double apart = 0;
    for (int n = 0; n < runs; n++) apart = least(c_O2_nothing, &m.script, apart);
    printf("Every side's time has the taking apart of the script in it: %.1f ns a call in C.\n", 1e9 * apart / (double)calls);

    size_t few = calls / 10 + 200;
    printf("\nBy kind of call, %zu calls each, ns a call:\n%-28s %9s %9s %12s %9s\n", few, "", "C, -O2", "C, -O3", "single call", "`call`");
    for (int k = 0; k < KINDS; k++) {
        make_kind(&m, k, few);
        hold_together(kind_names[k], &m.script);
        measure(&m.script, runs);
        double per = 1e9 / (double)m.script.calls;
        printf("%-28s %9.1f %9.1f %12.1f %9.1f\n", kind_names[k], per * sides[0].seconds, per * sides[1].seconds, per * sides[2].seconds, per * sides[3].seconds);
    }
    return 0;
}
