"""Words for the size test: outside figures, and every size there is.

Each case is (word, base, log2 of the size), the latter two known from how the
word was made or from the outside table size-codes.tsv; None for no size.
"""

import os

TABLE = os.path.join(os.path.dirname(os.path.abspath(__file__)),
                     "size-codes.tsv")
# N, U, W, R and the bits without a name: all below S.
LOW = 0x7FF


def outside_figures():
    """The rows of the table."""
    with open(TABLE, encoding="ascii") as rows:
        for row in rows:
            if row.startswith("#") or not row.strip():
                continue
            body, base, log2 = row.split()
            yield int(body, 16), int(base, 16), int(log2)


def coded(base, log2):
    """The word that says this base and size."""
    if log2 == 12:
        return base
    ones = (1 << log2 - 1) - (1 << 12)      # bits 12 to log2 - 2
    return base | ones | 1 << 11


def cases(rng):
    """All of them."""
    rows = list(outside_figures())
    if len(rows) < 400:
        raise AssertionError("size-codes.tsv is not whole")
    for word, base, log2 in rows:
        yield word, base, log2
        yield word | rng.bits(11), base, log2
    for log2 in range(12, 65):
        top = (1 << 64) - (1 << log2)
        for base in (0, top, rng.bits(64) & top, rng.bits(64) & top):
            word = coded(base, log2)
            yield word, base, log2
            yield word | rng.bits(11), base, log2
            yield word | LOW, base, log2
    for bit in range(11):
        yield 0x5000 | 1 << bit, 0x5000, 12
        yield 0x5800 | 1 << bit, 0x4000, 14
    none = (1 << 64) - (1 << 11)
    for low in [0, LOW] + [1 << bit for bit in range(11)] + [rng.bits(11)]:
        yield none | low, None, None
