// Makes scripts. The model runs too, so that completions and responses fit outstanding requests. The
// answers of the calls are counted.
#include <stdio.h>
#include <stdlib.h>
#include "calls.h"

enum { OUT = 160, PLACES = 64 };

// Events that the mix has to contain, besides every answer and refusal.
enum event { READ_HITS, WRITE_HITS, ONE_PACKET, SECOND_PACKETS, INVALIDATIONS, READS_NOTED, DRAINS_SENT, DRAINS_HELD, RESPONSES, EVENTS };

struct maker {
    struct script script;
    struct function f;
    size_t pool_room;
    uint64_t seed;
    size_t by_call[CALLS], by_word[READ_FAILED + 1], by_number[NO_ROOM + 1], by_event[EVENTS];
    uint8_t out[OUT];
};

// Random draws occur only where C fixes their order, so that every compiler makes the same script.
static unsigned pick(struct maker *m, unsigned n) {
    m->seed = m->seed * 6364136223846793005 + 1442695040888963407;
    return (m->seed >> 33) % n;
}
static bool one_in(struct maker *m, unsigned n) { return pick(m, n) == 0; }
static uint64_t pick64(struct maker *m) {
    uint64_t high = pick(m, 1u << 31), low = pick(m, 1u << 31);
    return high << 33 ^ low << 2;
}

// Nothing yet, or nothing any more.
static void begin(struct maker *m, size_t calls) {
    free(m->script.numbers);
    free(m->script.pool);
    memset(m, 0, sizeof *m);
    m->seed = 20261115;
    m->pool_room = 1 << 20;
    m->script.numbers = malloc(calls * 3 * sizeof(uint64_t));
    m->script.pool = malloc(m->pool_room);
    reset(&m->f, 0, 0, 64);
}

// The tag of a completion has an outstanding TR that has received the first of two packets.
static bool is_second(const struct function *f, const struct step *s) {
    return s->call == RECEIVE && s->load > 12 && s->bytes[0] == 0x4A && s->bytes[10] < 32 && f->tags[s->bytes[10]].use == ASKED &&
           f->tags[s->bytes[10]].ask.due;
}

static bool is_noted(const struct function *f, unsigned itag) {
    for (int i = 0; i < 32; i++)
        if (f->tags[i].use == READING && f->tags[i].read.itags >> itag & 1) return true;
    return false;
}

static void count_events(struct maker *m, const struct step *s, struct answer a, bool second) {
    bool received = s->call == RECEIVE && a.word == DONE;
    m->by_event[READ_HITS] += s->call == READ && a.word == OPENED;
    m->by_event[WRITE_HITS] += s->call == WRITE && a.word == DONE;
    m->by_event[ONE_PACKET] += a.word == FILLED && !second;
    m->by_event[SECOND_PACKETS] += a.word == FILLED && second;
    m->by_event[INVALIDATIONS] += received && s->bytes[0] == 0x72;
    m->by_event[READS_NOTED] += received && s->bytes[0] == 0x72 && is_noted(&m->f, s->bytes[6] & 31);
    m->by_event[DRAINS_SENT] += s->call == DRAIN && a.sent;
    m->by_event[DRAINS_HELD] += s->call == DRAIN && a.word == CARRIED && !a.sent && m->f.waiting;
    m->by_event[RESPONSES] += received && s->bytes[0] == 0x32;
}

static struct answer emit(struct maker *m, unsigned call_, unsigned flags, unsigned number, uint64_t address, unsigned room,
                          const uint8_t *bytes, size_t load) {
    struct script *s = &m->script;
    uint64_t *to = s->numbers + 3 * s->calls;
    if (s->pool_size + load > m->pool_room) s->pool = realloc(s->pool, m->pool_room *= 2);
    if (!s->numbers || !s->pool) abort();
    if (load) memcpy(s->pool + s->pool_size, bytes, load);
    to[0] = call_ | flags << 8 | (uint64_t)number << 16 | (uint64_t)load << 32 | (uint64_t)room << 48;
    to[1] = address;
    to[2] = s->pool_size;
    struct step step = step_at(s->numbers, s->pool, s->calls);
    bool second = is_second(&m->f, &step);
    struct answer a = call(&m->f, step, m->out);
    count_events(m, &step, a, second);
    s->pool_size += load;
    s->calls++;
    m->by_call[call_]++;
    m->by_word[a.word]++;
    if (a.word == REFUSED) m->by_number[a.value]++;
    return a;
}

static void emit_plain(struct maker *m, unsigned call_, unsigned number) { emit(m, call_, 0, number, 0, OUT, 0, 0); }

static void emit_reset(struct maker *m, unsigned id, unsigned stu, unsigned rcb) {
    emit(m, RESET, stu, id, rcb, OUT, 0, 0);
}

// Packets that the card receives, with Attr at random: no side may decide anything by it.

static void emit_packet(struct maker *m, const uint8_t *b, size_t n) {
    uint8_t with_attr[144];
    unsigned attr = pick(m, 8);
    memcpy(with_attr, b, n);
    if (n > 2) {
        with_attr[1] |= attr >> 2 << 2;
        with_attr[2] |= (attr & 3) << 4;
    }
    emit(m, RECEIVE, 0, 0, 0, OUT, with_attr, n);
}

static void emit_completion(struct maker *m, unsigned tag, unsigned count, unsigned lower, const uint8_t *payload, size_t load) {
    uint8_t b[144] = {0x4A, 0, 0, load / 4, 0, 8, count >> 8, count, m->f.id >> 8, m->f.id, tag, lower};
    memcpy(b + 12, payload, load);
    emit_packet(m, b, 12 + load);
}

static void emit_status(struct maker *m, unsigned tag, unsigned status) {
    uint8_t b[12] = {0x0A, 0, 0, 0, 0, 8, status << 5, 4, m->f.id >> 8, m->f.id, tag, 0};
    emit_packet(m, b, 12);
}

static void emit_invalidation(struct maker *m, unsigned from, unsigned itag, uint64_t body) {
    uint8_t b[24] = {0x72, 0, 0, 2, from >> 8, from, itag, 1, m->f.id >> 8, m->f.id};
    put64(b + 16, body);
    emit_packet(m, b, 24);
}

static void emit_response(struct maker *m, unsigned code, unsigned index) {
    uint8_t b[16] = {0x32, 0, 0, 0, 0, 8, 0, 5, m->f.id >> 8, m->f.id, code << 4 | index >> 8, index};
    emit_packet(m, b, 16);
}

// A translation or an invalidation of 2^size bytes, as coded.
static uint64_t coded(uint64_t address, unsigned size) {
    if (size == 12) return region(address, 12);
    return region(address, size) | (region(below(size - 1), 12)) | 0x800;
}

// Units to request: three quarters of them are below 4 GiB.
static uint64_t place(struct maker *m) {
    unsigned k = pick(m, PLACES);
    uint64_t base = k % 4 ? 0x200000 : 0x123456000000;
    return base + ((uint64_t)k << unit_of(&m->f));
}

static uint64_t translation(struct maker *m, unsigned size) {
    static const uint8_t rights[16] = {3, 3, 3, 3, 3, 3, 3, 3, 3, 3, 1, 1, 1, 1, 2, 0};
    uint64_t to = one_in(m, 2) ? pick64(m) & 0xFFFFFFFF : pick64(m);
    unsigned right = rights[pick(m, 16)], untranslated = one_in(m, 16), no_snoop = one_in(m, 4);
    return coded(to, size) | right | untranslated << 2 | no_snoop << 10;
}

// A tag in this state, searched from a random one on; 32 if there is none.
static unsigned open_tag(struct maker *m, int use) {
    unsigned from = pick(m, 32);
    for (unsigned i = 0; i < 32; i++)
        if ((int)m->f.tags[(from + i) % 32].use == use) return (from + i) % 32;
    return 32;
}

static unsigned open_tags(const struct maker *m) {
    unsigned n = 0;
    for (int i = 0; i < 32; i++) n += m->f.tags[i].use != FREE;
    return n;
}

// The calls of the mix.

static void make_ask(struct maker *m) {
    static const uint8_t most[4] = {1, 2, 4, 16};
    unsigned units = 1 + pick(m, most[pick(m, 4)]);
    if (units > m->f.rcb / 8u) units = m->f.rcb / 8;
    unsigned nowrite = one_in(m, 8), offset = pick(m, 4096);
    emit(m, ASK, nowrite, units, place(m) + offset, OUT, 0, 0);
}

// A reply in one packet, or the first of two; or the second, if the first has come.
static void make_reply(struct maker *m, unsigned tag) {
    const struct tag *t = &m->f.tags[tag];
    uint8_t payload[128];
    unsigned unit = unit_of(&m->f), size = t->ask.size, count = t->ask.due, n = count / 8, lower = 0;
    if (!count) {
        size = one_in(m, 4) ? unit + pick(m, 10) : unit;
        uint64_t first = region(t->address, unit), last = first + (((uint64_t)t->ask.units << unit) - 1);
        n = region_number(last, size) - region_number(first, size) + 1;
        count = 8 * n;
        if (n > 1 && one_in(m, 3)) n = 1 + pick(m, n - 1);
        lower = -(8 * n) % m->f.rcb;
    }
    for (unsigned i = 0; i < n; i++) put64(payload + 8 * i, translation(m, size));
    emit_completion(m, tag, count, lower, payload, 8 * n);
}

static void make_access(struct maker *m, bool write) {
    unsigned words = 1 + pick(m, one_in(m, 4) ? 32 : 8);
    const struct entry *e = &m->f.slots[pick(m, 32)];
    for (int i = 0; i < 3 && !(write ? e->w : e->r); i++) e = &m->f.slots[pick(m, 32)];
    if (!e->used) {
        make_ask(m);
        return;
    }
    uint64_t page = e->unit + (((uint64_t)pick(m, 1u << m->f.stu)) << 12);
    uint8_t payload[128];
    for (unsigned i = 0; write && i < 4 * words; i++) payload[i] = pick(m, 256);
    emit(m, write ? WRITE : READ, 0, words, page + 4 * pick(m, 1025 - words), OUT, payload, write ? 4 * words : 0);
}

static void make_data(struct maker *m, unsigned tag) {
    uint8_t payload[128];
    unsigned due = m->f.tags[tag].read.due, n = due;
    if (due > 4 && one_in(m, 3)) n = 4 * (1 + pick(m, due / 4 - 1));
    for (unsigned i = 0; i < n; i++) payload[i] = pick(m, 256);
    emit_completion(m, tag, due, pick(m, 128), payload, n);
}

static void make_end(struct maker *m, int use) {
    unsigned tag = open_tag(m, use);
    if (tag == 32 || (open_tags(m) < 8 && one_in(m, 2))) {
        if (use == ASKED) make_ask(m);
        else make_access(m, false);
    } else if (one_in(m, 24)) {
        emit_status(m, tag, one_in(m, 4) ? 1 : 4);
    } else if (use == ASKED) {
        make_reply(m, tag);
    } else {
        make_data(m, tag);
    }
}

static void make_invalidation(struct maker *m) {
    unsigned unit = unit_of(&m->f), itag = pick(m, 32), size = 12;
    if (one_in(m, 3)) size = unit + pick(m, 4);
    if (one_in(m, 32)) size = 24 + pick(m, 41);
    while (m->f.waiting != UINT32_MAX && m->f.waiting >> itag & 1 && !one_in(m, 4)) itag = pick(m, 32);
    emit_invalidation(m, 8, itag, coded(place(m), size));
}

static void make_page_request(struct maker *m) {
    unsigned index = pick(m, 32), rights = 1 + pick(m, 3), last = one_in(m, 2), flags = rights << 1 | last;
    if (m->f.groups[index].waits) index = pick(m, 32);
    emit(m, REQUEST_PAGE, flags, index, place(m), OUT, 0, 0);
}

static void make_response(struct maker *m) {
    unsigned index = pick(m, 32);
    for (int i = 0; i < 32 && !m->f.groups[index].waits; i++) index = (index + 1) % 32;
    emit_response(m, one_in(m, 5000) ? 2 + pick(m, 14) : pick(m, 2), index);
}

// A call that is refused, mostly.
static void make_wrong(struct maker *m) {
    static const uint8_t first[8] = {0x00, 0x20, 0x40, 0x60, 0x0A, 0x4A, 0x32, 0x30};
    uint8_t b[144] = {0};
    unsigned id = m->f.id, wrong = pick(m, 12), small = pick(m, 16), some = pick(m, 32), other = pick(m, 4096);
    uint64_t address = place(m);
    switch (wrong) {
    case 0: emit_packet(m, b, pick(m, 12)); break;
    case 1: b[0] = pick(m, 256); b[3] = 1; emit_packet(m, b, 16); break;
    case 2: b[0] = first[pick(m, 8)]; b[2] = 0x40; b[3] = 1; b[7] = 2 + pick(m, 4); emit_packet(m, b, 12 + 4 * pick(m, 3)); break;
    case 3: b[0] = first[pick(m, 8)]; b[2] = pick(m, 16); b[3] = 1 + pick(m, 3); b[7] = 0xFF; emit_packet(m, b, 12 + 4 * pick(m, 5)); break;
    case 4: m->f.id ^= 1; emit_status(m, pick(m, 32), 4); m->f.id = id; break;
    case 5: emit_status(m, pick(m, 256), 0); break;
    case 6: emit(m, READ, 0, some + small, address + other, OUT, 0, 0); break;
    case 7: emit(m, WRITE, 0, 2, address + 0x40000000, OUT, b, 8); break;
    case 8: emit(m, ASK, 0, some, small % 2 ? UINT64_MAX - 16 * other : address, OUT, 0, 0); break;
    case 9: emit(m, some % 2 ? ASK : DRAIN, 0, 1, address, small, 0, 0); break;
    case 10: emit_completion(m, some, 8 * small, 0, b, 8); break;
    default: emit_invalidation(m, m->f.agent_known ? m->f.agent + 1 : 8, pick(m, 32), 0x200000); break;
    }
}

static void make_start(struct maker *m) {
    static const uint8_t stus[4] = {0, 0, 1, 4};
    unsigned id = pick(m, 65536), stu = stus[pick(m, 4)], rcb = one_in(m, 2) ? 64 : 128;
    emit_reset(m, id, stu, rcb);
    emit_plain(m, ENABLE, 0);
    emit_plain(m, SWITCH_ON, 16 + pick(m, 497));
}

static void make_switch(struct maker *m) {
    unsigned allocation = 16 + pick(m, 500);
    emit_plain(m, one_in(m, 20) ? SWITCH_OFF : SWITCH_ON, allocation);
}

static void make_mixed(struct maker *m) {
    if (!m->f.enabled && one_in(m, 3)) {
        emit_plain(m, ENABLE, 0);
        return;
    }
    unsigned k = pick(m, 100), open = open_tags(m);
    if (open > 24 && k < 46 && !one_in(m, 8)) k = k < 20 ? 12 : 46; // rather end what is open
    if (k < 12) make_ask(m);
    else if (k < 28) make_end(m, ASKED);
    else if (k < 46) make_access(m, false);
    else if (k < 66) make_end(m, READING);
    else if (k < 78) make_access(m, true);
    else if (k < 83) make_invalidation(m);
    else if (k < 88) emit_plain(m, DRAIN, 0);
    else if (k < 93) make_page_request(m);
    else if (k < 95) make_response(m);
    else if (k < 99) make_wrong(m);
    else if (one_in(m, 2)) emit_plain(m, one_in(m, 20) ? DISABLE : ENABLE, 0);
    else if (one_in(m, 4)) make_switch(m);
    else if (one_in(m, 40)) make_start(m);
    else emit_reset(m, 0, 32 + pick(m, 9), 64);
}

static void make_mix(struct maker *m, size_t calls) {
    begin(m, calls + 2);
    make_start(m);
    while (m->script.calls < calls) make_mixed(m);
    m->script.calls = calls;
}

// Scripts of one kind of call, or of a pair of calls that restores the state, on a card with a
// full cache and some used tags.

enum kind { WRITES, READS, READ_PAIRS, ASK_PAIRS, ASK8_PAIRS, INV_PAIRS, PAGE_PAIRS, DRAINS, SWITCHES, NOT_OPENS, KINDS };

static const char *kind_names[KINDS] = {
    "write of 8 DWORDs", "read, refused (11)", "read and its completion", "ask 1 unit and its reply", "ask 8 units and their reply",
    "invalidation and drain", "page request and response", "drain with nothing to send", "disable and enable", "completion, refused (7)"};

static void fill_eight(struct maker *m, uint64_t at, unsigned units) {
    uint8_t payload[128];
    struct answer a = emit(m, ASK, 0, units, at, OUT, 0, 0);
    for (unsigned i = 0; i < units; i++) put64(payload + 8 * i, 0x40000003 + at + 4096 * i);
    emit_completion(m, a.value, 8 * units, -(8 * units) % 64, payload, 8 * units);
}

static void make_kind(struct maker *m, enum kind kind, size_t calls) {
    uint8_t payload[128] = {1, 2, 3};
    struct answer a;
    begin(m, calls + 128);
    emit_reset(m, 0x100, 0, 64);
    emit_plain(m, ENABLE, 0);
    emit_plain(m, SWITCH_ON, 512);
    for (int i = 0; i < 4; i++) fill_eight(m, 0x200000 + 0x8000 * i, 8);
    for (int i = 0; i < (kind == READS ? 32 : 12); i++) emit(m, READ, 0, 8, 0x200000, OUT, 0, 0);
    while (m->script.calls < calls) {
        uint64_t at = 0x200000 + 4096 * pick(m, 32);
        switch (kind) {
        case WRITES: emit(m, WRITE, 0, 8, at, OUT, payload, 32); break;
        case READS: emit(m, READ, 0, 8, at, OUT, 0, 0); break;
        case READ_PAIRS: a = emit(m, READ, 0, 8, at, OUT, 0, 0); emit_completion(m, a.value, 32, 0, payload, 32); break;
        case ASK_PAIRS: fill_eight(m, at, 1); break;
        case ASK8_PAIRS: fill_eight(m, at & ~(uint64_t)0x7FFF, 8); break;
        case INV_PAIRS: emit_invalidation(m, 8, pick(m, 32), at + 0x1000000); emit_plain(m, DRAIN, 0); break;
        case PAGE_PAIRS: emit(m, REQUEST_PAGE, 7, pick(m, 32), at, OUT, 0, 0); emit_response(m, 0, m->out[15] >> 3 | (m->out[14] & 15) << 5); break;
        case DRAINS: emit_plain(m, DRAIN, 0); break;
        case SWITCHES: emit_plain(m, DISABLE, 0); emit_plain(m, ENABLE, 0); break;
        default: emit_status(m, 31, 1); break;
        }
    }
}
