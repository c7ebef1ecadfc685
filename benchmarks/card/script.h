// A script of calls: three numbers each, and a part of a pool of bytes, which is a received packet or the payload of an
// access. The proved side, crates/bench_card, decodes them in the same way.
#include <stdbool.h>
#include <stddef.h>
#include <stdint.h>

enum call { RESET, ENABLE, DISABLE, ASK, READ, WRITE, RECEIVE, DRAIN, SWITCH_ON, SWITCH_OFF, REQUEST_PAGE, CALLS };

// The numbers of a call: call and flags (8 bits each), number, load, room (16 bits each), lowest first;
// address; where its bytes begin.
struct script {
    uint64_t *numbers;
    uint8_t *pool;
    size_t calls, pool_size;
};

struct step {
    unsigned call, flags, number;
    size_t load, room;
    uint64_t address;
    const uint8_t *bytes;
};

static inline struct step step_at(const uint64_t *numbers, const uint8_t *pool, size_t i) {
    uint64_t head = numbers[3 * i];
    return (struct step){head & 255, head >> 8 & 255, head >> 16 & 65535, head >> 32 & 65535, head >> 48,
                         numbers[3 * i + 1], pool + numbers[3 * i + 2]};
}

// A replay: the numbers and the pool of the script, a buffer for the packets sent, and whether every byte of the buffer
// goes into the returned sum after each call.
typedef uint64_t replay(const uint64_t *numbers, size_t count, const uint8_t *pool, size_t pool_size, uint8_t *out,
                        size_t out_size, bool checked);
