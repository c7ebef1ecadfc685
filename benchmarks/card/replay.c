// Replays a script on the model. This file is built once for each optimization level, with REPLAY and NOTHING as the
// names of its functions.
#include "calls.h"

static uint64_t mix(uint64_t sum, uint32_t x) { return (sum & 0xFFFFFFFF) * 16777619 + x; }

static uint64_t mix_bytes(uint64_t sum, const uint8_t *b, size_t n) {
    for (size_t i = 0; i < n; i++) sum = mix(sum, b[i]);
    return sum;
}

// The digest of the state's bytes in the layout of crates/test_snapshot: each number in its width, high byte first.
static uint64_t digest(uint64_t h, uint64_t number, int width) {
    while (width-- > 0) h = (h * 257 + (number >> 8 * width & 255) + 1) % 4294967291;
    return h;
}

static uint64_t digest_slot(uint64_t h, const struct entry *e) {
    h = digest(h, e->used, 1);
    if (!e->used) return h;
    h = digest(digest(h, e->unit, 8), e->to, 8);
    return digest(h, e->r | e->w << 1 | e->n << 2 | e->u << 3, 1);
}

static uint64_t digest_tag(uint64_t h, const struct tag *t) {
    h = digest(h, t->use, 1);
    if (t->use == FREE) return h;
    h = digest(h, t->address, 8);
    if (t->use == ASKED) {
        unsigned came = t->ask.due ? (t->ask.whole - t->ask.due) / 8 : 0;
        h = digest(digest(h, t->ask.units, 1), t->ask.stale, 1);
        return digest(digest(digest(h, t->ask.size, 1), came, 1), t->ask.due, 2);
    }
    h = digest(digest(h, t->read.bytes, 2), t->read.due, 2);
    return digest(digest(h, t->read.translated, 1), t->read.itags, 4);
}

static uint64_t digest_pages(uint64_t h, const struct function *f) {
    h = digest(h, f->pages, 1);
    if (f->pages != ON) return h;
    h = digest(digest(h, f->allocation, 2), f->allocation - f->used, 2);
    for (int i = 0; i < 32; i++) h = digest(digest(h, f->groups[i].requests, 2), f->groups[i].waits, 1);
    return h;
}

static uint32_t state_digest(const struct function *f) {
    uint64_t h = digest(digest(digest(digest(0, f->id, 2), f->stu, 1), f->rcb, 1), f->enabled, 1);
    h = digest(digest(digest(h, f->agent_known, 1), f->agent, 2), f->hand, 4);
    for (int i = 0; i < 32; i++) h = digest_slot(h, &f->slots[i]);
    for (int i = 0; i < 32; i++) h = digest_tag(h, &f->tags[i]);
    return (uint32_t)digest_pages(digest(h, f->waiting, 4), f);
}

uint64_t REPLAY(const uint64_t *numbers, size_t count, const uint8_t *pool, size_t pool_size, uint8_t *out, size_t out_size,
                bool checked) {
    struct function f;
    uint64_t sum = 0;
    (void)pool_size;
    reset(&f, 0, 0, 64);
    for (size_t i = 0; i < count / 3; i++) {
        struct step s = step_at(numbers, pool, i);
        struct answer a = call(&f, s, out);
        if (checked && a.payload) sum = mix_bytes(sum, a.payload, s.load - 12);
        if (checked) sum = mix_bytes(sum, out, out_size);
        sum = mix(mix(sum, a.word * 65536u + a.value), a.sent);
    }
    return mix(mix_bytes(sum, out, out_size), state_digest(&f));
}

// Decodes the script and calls nothing.
uint64_t NOTHING(const uint64_t *numbers, size_t count, const uint8_t *pool, size_t pool_size, uint8_t *out, size_t out_size,
                 bool checked) {
    uint64_t sum = 0;
    (void)pool_size, (void)out, (void)out_size, (void)checked;
    for (size_t i = 0; i < count / 3; i++) {
        struct step s = step_at(numbers, pool, i);
        sum = mix(mix(sum, s.call * 65536u + s.number), s.flags);
        sum = mix(mix(sum, s.load % 65536 + s.room % 65536), (uint32_t)s.address);
        sum = mix(sum, s.load ? s.bytes[0] : 0);
    }
    return sum;
}
