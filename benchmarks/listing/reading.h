// Reads a line, for both C programs: the rules of document 01, written by hand.
#include <stddef.h>
#include <stdint.h>

struct answer {
    int bad;           // the number, or -1 where the line is a packet
    const char *kind;
    unsigned sender;
    char form;         // of the label: d decimal, x eight hex digits, - none
    unsigned label;
};

static uint8_t values[256];

static void fill_values(void) {
    for (int c = 0; c < 256; c++)
        values[c] = c >= '0' && c <= '9'   ? c - '0'
                    : c >= 'A' && c <= 'F' ? c - 'A' + 10
                    : c >= 'a' && c <= 'f' ? c - 'a' + 10
                                           : 16;
}

static inline uint32_t four(const uint8_t *b) { return (uint32_t)b[0] << 24 | b[1] << 16 | b[2] << 8 | b[3]; }

static inline struct answer bad(int number) { return (struct answer){number, 0, 0, 0, 0}; }

static inline struct answer says(const char *kind, const uint8_t *b, char form, unsigned label) {
    return (struct answer){-1, kind, (unsigned)b[4] << 8 | b[5], form, label};
}

static struct answer read_packet(const uint8_t *b, size_t n) {
    enum { READ, WRITE, CPL, CPLD, INV, IC, PRQ, PRS } form;
    int wide = 0;
    if (n < 12 || n > 144) return bad(1);
    switch (b[0]) {
    case 0x20: wide = 1; // fall through
    case 0x00: form = READ; break;
    case 0x60: wide = 1; // fall through
    case 0x40: form = WRITE; break;
    case 0x0A: form = CPL; break;
    case 0x4A: form = CPLD; break;
    case 0x72: if (b[7] != 1) return bad(2); form = INV; break;
    case 0x30: if (b[7] != 4) return bad(2); form = PRQ; break;
    case 0x32: if (b[7] == 2) form = IC; else if (b[7] == 5) form = PRS; else return bad(2); break;
    default: return bad(2);
    }
    unsigned words = (b[2] & 3) << 8 | b[3], dwords = words ? words : 1024;
    size_t header = wide || form >= INV ? 16 : 12;
    int loaded = form == WRITE || form == CPLD || form == INV;
    if (n != header + (loaded ? 4 * dwords : 0)) return bad(1);
    if (b[2] >> 6) return bad(3);
    unsigned at = b[2] >> 2 & 3, tc = b[1] >> 4 & 7;
    if (wide && four(b + 8) == 0) return bad(4);
    switch (form) {
    case READ:
        if (at == 1) {
            if (b[7] != 0xFF || words & 1 || dwords > 32) return bad(4);
            return says("TR", b, 'd', b[6]);
        } // fall through
    case WRITE:
        if (at & 1 || b[7] != (words == 1 ? 0x0F : 0xFF) || dwords > 32) return bad(4);
        return form == READ ? says("MEM", b, 'd', b[6]) : says("MEM", b, '-', 0);
    case CPL:
        if (b[6] >> 5 == 2) return bad(4);
        return says("CPL", b, 'd', b[10]);
    case CPLD:
        if (b[6] >> 5 || dwords > 32) return bad(4);
        return says("CPL", b, 'd', b[10]);
    case INV:
        if (words != 2) return bad(4);
        if (b[22] & 8 && four(b + 16) == 0xFFFFFFFF && b[20] == 0xFF && b[21] == 0xFF && b[22] >> 4 == 15) return bad(4);
        return says("INV", b, 'd', b[6] & 31);
    case IC: return says("IC", b, 'x', four(b + 12));
    case PRQ:
        if (tc) return bad(4);
        return says("PRQ", b, 'd', (b[14] & 15) << 5 | b[15] >> 3);
    default:
        if (tc) return bad(4);
        return says("PRS", b, 'd', (b[10] & 1) << 8 | b[11]);
    }
}

static struct answer read_line(const char *line, size_t n) {
    uint8_t bytes[144];
    if (n > 288) return bad(1);
    if (n & 1) return bad(0);
    for (size_t i = 0; i < n / 2; i++) {
        uint8_t high = values[(uint8_t)line[2 * i]], low = values[(uint8_t)line[2 * i + 1]];
        if ((high | low) & 16) return bad(0);
        bytes[i] = high << 4 | low;
    }
    return read_packet(bytes, n / 2);
}
