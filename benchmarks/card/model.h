// The Function of document 01 in C, with its state behind a pointer, for comparison with the proved card.
#include <stdbool.h>
#include <stddef.h>
#include <stdint.h>
#include <string.h>

// The seventeen refusals.
enum {
    LENGTH = 1, KIND, MARKED, FORBIDDEN, NOT_OURS, DISABLED, NOT_OPEN, MISFIT, STILL_WAITING,
    OTHER_AGENT, NO_TAG, ARGUMENT, NO_ENTRY, NO_RIGHT, PAGES_OFF, NO_CREDIT, NO_ROOM
};

enum word {
    REFUSED, DONE, OPENED, CARRIED, DISCARDED, MORE, FILLED, ABORTED, SWITCHED_OFF, PAYLOAD_MORE,
    PAYLOAD_LAST, READ_FAILED
};

// The answer of a call; `value` is a refusal's number, a tag or a count of ITags.
struct answer {
    uint16_t word, value;
    uint32_t sent;              // the length of the packet that was sent, or 0
    const uint8_t *payload;     // of a completion for a read: from byte 12 to the packet's end
};

struct entry {
    uint64_t unit, to;
    bool used, r, w, n, u;
};

// The state of a tag. The last three fields of a TR are set after the first of two packets, otherwise 0.
struct tag {
    enum { FREE, ASKED, READING } use;
    uint64_t address;
    union {
        struct { uint8_t units, size; bool stale; uint16_t whole, due; } ask;
        struct { uint16_t bytes, due; bool translated; uint32_t itags; } read;
    };
};

struct group {
    uint16_t requests;
    bool waits;
};

struct function {
    uint16_t id, agent;
    uint8_t stu, rcb;
    bool enabled, agent_known;
    enum { OFF, ON, STOPPED } pages;
    uint16_t allocation, used;
    uint32_t waiting, hand;
    struct entry slots[32];
    struct tag tags[32];
    struct group groups[32];
};

static struct answer plain(enum word word, unsigned value) { return (struct answer){word, value, 0, 0}; }
static struct answer refused(unsigned number) { return plain(REFUSED, number); }

// Numbers in packets, high byte first.

static unsigned get16(const uint8_t *b) { return b[0] << 8 | b[1]; }
static uint32_t get32(const uint8_t *b) { return (uint32_t)get16(b) << 16 | get16(b + 2); }
static uint64_t get64(const uint8_t *b) { return (uint64_t)get32(b) << 32 | get32(b + 4); }
static void put16(uint8_t *b, unsigned n) { b[0] = n >> 8; b[1] = n; }
static void put32(uint8_t *b, uint32_t n) { put16(b, n >> 16); put16(b + 2, n & 0xFFFF); }
static void put64(uint8_t *b, uint64_t n) { put32(b, n >> 32); put32(b + 4, (uint32_t)n); }

// Sizes are exponents, and ranges end with their last byte: 2^64 never has to fit.

static uint64_t below(unsigned exponent) { return exponent < 64 ? ((uint64_t)1 << exponent) - 1 : UINT64_MAX; }
static uint64_t region(uint64_t address, unsigned exponent) { return address & ~below(exponent); }
static uint64_t region_number(uint64_t address, unsigned exponent) { return exponent < 64 ? address >> exponent : 0; }
static bool meets(uint64_t first, uint64_t last, uint64_t other_first, uint64_t other_last) {
    return first <= other_last && other_first <= last;
}
static unsigned unit_of(const struct function *f) { return 12 + f->stu; }

// The size that a translation or an invalidation codes; 0 for none.
static unsigned size_of(uint64_t word) {
    if (!(word & 0x800)) return 12;
    for (unsigned b = 12; b < 64; b++)
        if (!(word >> b & 1)) return b + 1;
    return 0;
}

// Reset, enable, disable, the page interface.

static void close_pages(struct function *f, int pages, unsigned allocation) {
    f->pages = pages;
    f->allocation = allocation;
    f->used = 0;
    memset(f->groups, 0, sizeof f->groups);
}

static struct answer reset(struct function *f, uint16_t id, uint8_t stu, uint8_t rcb) {
    if (stu > 31 || (rcb != 64 && rcb != 128)) return refused(ARGUMENT);
    memset(f, 0, sizeof *f);
    f->id = id;
    f->stu = stu;
    f->rcb = rcb;
    return plain(DONE, 0);
}

static struct answer enable(struct function *f) {
    if (!f->enabled) {
        f->enabled = true;
        memset(f->slots, 0, sizeof f->slots);
        for (int i = 0; i < 32; i++)
            if (f->tags[i].use == ASKED) f->tags[i].ask.stale = true;
    }
    return plain(DONE, 0);
}

static struct answer disable(struct function *f) {
    f->enabled = false;
    return plain(DONE, 0);
}

static struct answer pages_on(struct function *f, unsigned allocation) {
    if (f->pages == STOPPED) return refused(PAGES_OFF);
    if (f->pages == ON || allocation < 1 || allocation > 512) return refused(ARGUMENT);
    close_pages(f, ON, allocation);
    return plain(DONE, 0);
}

static struct answer pages_off(struct function *f) {
    if (f->pages == ON) close_pages(f, OFF, 0);
    return plain(DONE, 0);
}

// The calls that send.

static void put_message(const struct function *f, uint8_t *out, uint8_t byte0, uint8_t code) {
    memset(out, 0, 16);
    out[0] = byte0;
    put16(out + 4, f->id);
    out[7] = code;
}

// The head of a TR or a MEM packet; its length.
static size_t head_size(uint64_t address) { return address >> 32 ? 16 : 12; }
static size_t put_head(const struct function *f, uint8_t *out, unsigned first, unsigned at, unsigned words, unsigned tag,
                       unsigned enables, uint64_t address) {
    out[0] = address >> 32 ? first | 0x20 : first;
    out[1] = 0;
    out[2] = at << 2 | words >> 8;
    out[3] = words;
    put16(out + 4, f->id);
    out[6] = tag;
    out[7] = enables;
    if (address >> 32) put64(out + 8, address);
    else put32(out + 8, (uint32_t)address);
    return head_size(address);
}

static int lowest_free(const struct function *f) {
    for (int i = 0; i < 32; i++)
        if (f->tags[i].use == FREE) return i;
    return 32;
}

static struct answer ask(struct function *f, uint64_t address, unsigned units, bool nowrite, uint8_t *out, size_t room) {
    if (!f->enabled) return refused(DISABLED);
    if (units < 1 || units > f->rcb / 8) return refused(ARGUMENT);
    uint64_t bytes = (uint64_t)units << unit_of(f);
    if (bytes - 1 > UINT64_MAX - region(address, unit_of(f))) return refused(ARGUMENT);
    int tag = lowest_free(f);
    if (tag == 32) return refused(NO_TAG);
    uint64_t sent = region(address, 12) | nowrite;
    if (room < head_size(sent)) return refused(NO_ROOM);
    f->tags[tag] = (struct tag){.use = ASKED, .address = address, .ask = {.units = units}};
    struct answer a = plain(OPENED, tag);
    a.sent = put_head(f, out, 0x00, 1, 2 * units, tag, 0xFF, sent);
    return a;
}

static struct entry *find(struct function *f, uint64_t unit) {
    for (int i = 0; i < 32; i++)
        if (f->slots[i].used && f->slots[i].unit == unit) return &f->slots[i];
    return 0;
}

static struct answer access(struct function *f, bool write, uint64_t address, unsigned words, const uint8_t *payload,
                            size_t load, uint8_t *out, size_t room) {
    if (!f->enabled) return refused(DISABLED);
    if (words < 1 || words > 32 || address % 4 || address % 4096 + 4 * words > 4096) return refused(ARGUMENT);
    if (load != (write ? 4 * words : 0)) return refused(ARGUMENT);
    const struct entry *e = find(f, region(address, unit_of(f)));
    if (!e) return refused(NO_ENTRY);
    if (write ? !e->w : !e->r) return refused(NO_RIGHT);
    int tag = 0;
    if (!write && (tag = lowest_free(f)) == 32) return refused(NO_TAG);
    uint64_t sent = e->u ? address : e->to + (address - e->unit);
    if (room < head_size(sent) + load) return refused(NO_ROOM);
    struct answer a = plain(DONE, 0);
    a.sent = put_head(f, out, write ? 0x40 : 0x00, e->u ? 0 : 2, words, tag, words == 1 ? 0x0F : 0xFF, sent);
    if (write) {
        memcpy(out + a.sent, payload, load);
        a.sent += load;
    } else {
        f->tags[tag] = (struct tag){.use = READING, .address = address,
                                    .read = {.bytes = 4 * words, .due = 4 * words, .translated = !e->u}};
        a.word = OPENED;
        a.value = tag;
    }
    return a;
}

static struct answer drain(struct function *f, uint8_t *out, size_t room) {
    uint32_t ready = f->waiting;
    for (int i = 0; i < 32; i++)
        if (f->tags[i].use == READING) ready &= ~f->tags[i].read.itags;
    if (!ready) return plain(CARRIED, 0);
    if (room < 16) return refused(NO_ROOM);
    f->waiting &= ~ready;
    put_message(f, out, 0x32, 0x02);
    put16(out + 8, f->agent);
    out[11] = 1;
    put32(out + 12, ready);
    struct answer a = plain(CARRIED, __builtin_popcount(ready));
    a.sent = 16;
    return a;
}

static struct answer page_request(struct function *f, uint64_t page, unsigned index, bool last, bool write, bool read,
                                  uint8_t *out, size_t room) {
    if (f->pages != ON) return refused(PAGES_OFF);
    if ((!read && !write) || page % 4096 || index > 31) return refused(ARGUMENT);
    if (f->groups[index].waits || f->used >= f->allocation) return refused(NO_CREDIT);
    if (room < 16) return refused(NO_ROOM);
    f->groups[index].requests++;
    f->groups[index].waits = last;
    f->used++;
    put_message(f, out, 0x30, 0x04);
    put64(out + 8, page | index << 3 | last << 2 | write << 1 | read);
    struct answer a = plain(DONE, 0);
    a.sent = 16;
    return a;
}

// Receiving: 0, or the refusal of bytes that are not a packet.
static unsigned misread(const uint8_t *b, size_t n) {
    if (n < 12 || n > 144) return LENGTH;
    unsigned words = (b[2] & 3) << 8 | b[3], dwords = words ? words : 1024;
    size_t expected;
    switch (b[0]) {
    case 0x00: case 0x0A: expected = 12; break;
    case 0x20: expected = 16; break;
    case 0x40: case 0x4A: expected = 12 + 4 * dwords; break;
    case 0x60: expected = 16 + 4 * dwords; break;
    case 0x72: if (b[7] != 1) return KIND; expected = 16 + 4 * dwords; break;
    case 0x30: if (b[7] != 4) return KIND; expected = 16; break;
    case 0x32: if (b[7] != 2 && b[7] != 5) return KIND; expected = 16; break;
    default: return KIND;
    }
    if (n != expected) return LENGTH;
    if (b[2] >> 6) return MARKED;
    unsigned at = b[2] >> 2 & 3, tc = b[1] >> 4 & 7, status = b[6] >> 5;
    bool good;
    switch (b[0]) {
    case 0x20: case 0x60:
        if (get32(b + 8) == 0) return FORBIDDEN;
        // fall through
    case 0x00: case 0x40:
        if (at == 1) good = b[0] < 0x40 && b[7] == 0xFF && words % 2 == 0;
        else good = at != 3 && b[7] == (words == 1 ? 0x0F : 0xFF);
        good = good && dwords <= 32;
        break;
    case 0x0A: good = status != 2; break;
    case 0x4A: good = status == 0 && dwords <= 32; break;
    case 0x72: good = words == 2 && size_of(get64(b + 16)) != 0; break;
    default: good = b[7] == 2 || tc == 0; break;
    }
    return good ? 0 : FORBIDDEN;
}

// The class of a completion with data for its TR, by its counts and Lower Address.
enum part { MISFITS, ENDS_OFF, FIRST, LAST };

static enum part part_of(const struct tag *t, unsigned rcb, unsigned count, unsigned lower, size_t bytes) {
    if (bytes % 8) return MISFITS;
    if (t->ask.due) return count == t->ask.due && bytes == t->ask.due && lower == 0 ? LAST : MISFITS;
    if (count % 8 || count < bytes || count > 8u * t->ask.units) return MISFITS;
    bool on_boundary = (bytes + lower) % rcb == 0;
    if (count == bytes) return on_boundary ? LAST : ENDS_OFF;
    return on_boundary ? FIRST : MISFITS;
}

// A fill replaces the entry of its unit. Without one it takes the lowest slot that is free,
// or the one that the hand names.
static void fill(struct function *f, struct entry e) {
    struct entry *slot = find(f, e.unit);
    for (int i = 0; !slot && i < 32; i++)
        if (!f->slots[i].used) slot = &f->slots[i];
    if (!slot) slot = &f->slots[f->hand++ % 32];
    *slot = e;
}

// The units of a TR's range that the translations from number `came` on cover.
static void apply(struct function *f, uint64_t first, uint64_t last, unsigned size, uint64_t came, const uint8_t *payload,
                  size_t bytes) {
    uint64_t step = (uint64_t)1 << unit_of(f);
    for (uint64_t unit = first;; unit += step) {
        uint64_t k = region_number(unit, size) - region_number(first, size);
        if (k >= came && k - came < bytes / 8) {
            uint64_t x = get64(payload + 8 * (k - came));
            if (x & 3) {
                uint64_t to = region(x, size) + (unit & below(size));
                fill(f, (struct entry){unit, x & 4 ? 0 : to, true, x & 1, x >> 1 & 1, x >> 10 & 1, x >> 2 & 1});
            } else {
                struct entry *slot = find(f, unit);
                if (slot) *slot = (struct entry){0};
            }
        }
        if (last - unit < step) return;
    }
}

static struct answer take_translations(struct function *f, struct tag *t, unsigned count, unsigned lower,
                                       const uint8_t *payload, size_t bytes) {
    enum part part = part_of(t, f->rcb, count, lower, bytes);
    if (part == MISFITS) return refused(MISFIT);
    if (part == ENDS_OFF) {
        *t = (struct tag){0};
        return plain(DISCARDED, 0);
    }
    unsigned unit = unit_of(f);
    uint64_t first = region(t->address, unit), last = first + (((uint64_t)t->ask.units << unit) - 1);
    unsigned size = t->ask.due ? t->ask.size : size_of(get64(payload));
    uint64_t came = (t->ask.whole - t->ask.due) / 8;
    if (size < unit) return refused(MISFIT);
    for (size_t i = 0; i < bytes / 8; i++)
        if (size_of(get64(payload + 8 * i)) != size) return refused(MISFIT);
    if (came + bytes / 8 - 1 > region_number(last, size) - region_number(first, size)) return refused(MISFIT);
    bool live = f->enabled && !t->ask.stale;
    if (live) apply(f, first, last, size, came, payload, bytes);
    if (part == LAST) {
        *t = (struct tag){0};
    } else {
        t->ask.size = size;
        t->ask.whole = count;
        t->ask.due = count - bytes;
    }
    return plain(!live ? DISCARDED : part == LAST ? FILLED : MORE, 0);
}

static struct answer take_data(struct tag *t, unsigned count, const uint8_t *payload, size_t bytes) {
    if (count != t->read.due || bytes > t->read.due) return refused(MISFIT);
    t->read.due -= bytes;
    struct answer a = plain(t->read.due ? PAYLOAD_MORE : PAYLOAD_LAST, 0);
    a.payload = payload;
    if (!t->read.due) *t = (struct tag){0};
    return a;
}

static struct answer take_status(struct function *f, struct tag *t, unsigned status) {
    if (status == 0) return refused(MISFIT);
    bool asked = t->use == ASKED;
    *t = (struct tag){0};
    if (!asked) return plain(READ_FAILED, 0);
    if (status == 4) return plain(ABORTED, 0);
    f->enabled = false;
    return plain(SWITCHED_OFF, 0);
}

static struct answer take_completion(struct function *f, const uint8_t *b, size_t n) {
    unsigned count = (b[6] & 15) << 8 | b[7], tag = b[10], lower = b[11] & 127;
    if (get16(b + 8) != f->id) return refused(NOT_OURS);
    if (tag > 31 || f->tags[tag].use == FREE) return refused(NOT_OPEN);
    struct tag *t = &f->tags[tag];
    if (b[0] == 0x0A) return take_status(f, t, b[6] >> 5);
    if (t->use == READING) return take_data(t, count, b + 12, n - 12);
    return take_translations(f, t, count, lower, b + 12, n - 12);
}

static struct answer take_invalidation(struct function *f, const uint8_t *b) {
    unsigned itag = b[6] & 31, from = get16(b + 4);
    if (get16(b + 8) != f->id) return refused(NOT_OURS);
    if (f->agent_known && f->agent != from) return refused(OTHER_AGENT);
    if (f->waiting >> itag & 1) return refused(STILL_WAITING);
    uint64_t body = get64(b + 16);
    unsigned unit = unit_of(f), size = size_of(body);
    if (size < unit) size = unit;
    uint64_t first = region(body, size), last = first | below(size);
    for (int i = 0; i < 32; i++) {
        struct entry *e = &f->slots[i];
        if (e->used && meets(e->unit, e->unit | below(unit), first, last)) *e = (struct entry){0};
    }
    for (int i = 0; i < 32; i++) {
        struct tag *t = &f->tags[i];
        if (t->use == ASKED) {
            uint64_t from = region(t->address, unit);
            if (meets(from, from + (((uint64_t)t->ask.units << unit) - 1), first, last)) t->ask.stale = true;
        } else if (t->use == READING && t->read.translated) {
            if (meets(t->address, t->address + (t->read.bytes - 1), first, last)) t->read.itags |= (uint32_t)1 << itag;
        }
    }
    f->waiting |= (uint32_t)1 << itag;
    f->agent = from;
    f->agent_known = true;
    return plain(DONE, 0);
}

static struct answer take_response(struct function *f, const uint8_t *b) {
    unsigned code = b[10] >> 4, index = (b[10] & 1) << 8 | b[11];
    if (get16(b + 8) != f->id) return refused(NOT_OURS);
    if (f->pages != ON) return refused(NOT_OPEN);
    if (code > 1) {
        close_pages(f, STOPPED, 0);
        return plain(DONE, 0);
    }
    if (index > 31 || !f->groups[index].waits) return refused(NOT_OPEN);
    f->used -= f->groups[index].requests;
    f->groups[index] = (struct group){0};
    return plain(DONE, 0);
}

static struct answer receive(struct function *f, const uint8_t *b, size_t n) {
    unsigned number = misread(b, n);
    if (number) return refused(number);
    if (b[0] == 0x0A || b[0] == 0x4A) return take_completion(f, b, n);
    if (b[0] == 0x72) return take_invalidation(f, b);
    if (b[0] == 0x32 && b[7] == 5) return take_response(f, b);
    return refused(KIND);
}
