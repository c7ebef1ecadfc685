// The listing in C with its own buffers and digits: read, memchr and write.
#include <string.h>
#include <unistd.h>
#include "reading.h"

static char in[1 << 16], out[1 << 16], joined[289];
static size_t filled, held;
static unsigned long number;

static void flush(void) {
    for (size_t at = 0; at < filled;) {
        ssize_t n = write(1, out + at, filled - at);
        if (n <= 0) _exit(1);
        at += (size_t)n;
    }
    filled = 0;
}

static char *put_decimal(char *p, unsigned long n) {
    char digits[20], *q = digits + 20;
    do *--q = (char)('0' + n % 10);
    while (n /= 10);
    size_t k = (size_t)(digits + 20 - q);
    memcpy(p, q, k);
    return p + k;
}

static char *put_hex(char *p, unsigned n, int digits) {
    for (int i = digits - 1; i >= 0; i--) p[digits - 1 - i] = "0123456789ABCDEF"[n >> 4 * i & 15];
    return p + digits;
}

static char *put_text(char *p, const char *s) {
    while (*s) *p++ = *s++;
    return p;
}

static void list_line(const char *line, size_t n) {
    struct answer a = read_line(line, n);
    if (sizeof out - filled < 64) flush();
    char *p = put_decimal(out + filled, ++number);
    *p++ = '\t';
    if (a.bad >= 0) {
        p = put_text(p, "BAD\t");
        p = put_decimal(p, (unsigned long)a.bad);
        p = put_text(p, "\t-");
    } else {
        p = put_text(p, a.kind);
        *p++ = '\t';
        p = put_hex(p, a.sender, 4);
        *p++ = '\t';
        if (a.form == 'x') p = put_hex(p, a.label, 8);
        else if (a.form == '-') *p++ = '-';
        else p = put_decimal(p, a.label);
    }
    *p++ = '\n';
    filled = (size_t)(p - out);
}

static void keep(const char *s, size_t n) {
    size_t room = sizeof joined - held;
    if (n > room) n = room;
    memcpy(joined + held, s, n);
    held += n;
}

int main(void) {
    ssize_t n;
    fill_values();
    while ((n = read(0, in, sizeof in)) > 0) {
        char *at = in, *end = in + n, *feed;
        while ((feed = memchr(at, '\n', (size_t)(end - at)))) {
            if (held) {
                keep(at, (size_t)(feed - at));
                list_line(joined, held);
                held = 0;
            } else list_line(at, (size_t)(feed - at));
            at = feed + 1;
        }
        keep(at, (size_t)(end - at));
    }
    if (held) list_line(joined, held);
    flush();
    return 0;
}
