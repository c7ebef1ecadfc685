"""Scripts of walks: the records, one a line, that the host is tested with.

A record is a byte that names it, then its fields, high byte first, in
upper-case hex. There is one table, at first of no entry. 01: a new table of
so many entries, all zero; 02: a value for one entry; 03: the host's ID, the
room of the lent buffer, and a packet to translate.
"""

FRESH, PUT, ASK = 1, 2, 3
MOST_ENTRIES, MOST_ROOM = 4096, 64
MOST_RECORD = 256
HEX = frozenset(b"0123456789ABCDEF")
# Record -> widths of its fields.
WIDTHS = {FRESH: (2,), PUT: (2, 8), ASK: (2, 2)}


def record(code, *values, packet=b""):
    """The record of these fields."""
    out = bytes([code])
    for value, width in zip(values, WIDTHS[code], strict=True):
        out += value.to_bytes(width, "big")
    return out + packet


def line_of(data):
    """The line of a record, without line feed."""
    return data.hex().upper().encode("ascii")


def parse(line):
    """(code, fields, packet) of a line."""
    if not HEX.issuperset(line):
        raise ValueError("not upper-case hex: %r" % line)
    data = bytes.fromhex(line.decode("ascii"))
    if not data or len(data) > MOST_RECORD or data[0] not in WIDTHS:
        raise ValueError("no such record: %r" % line)
    values, at = [], 1
    for width in WIDTHS[data[0]]:
        if at + width > len(data):
            raise ValueError("record ends inside its fields")
        values.append(int.from_bytes(data[at:at + width], "big"))
        at += width
    if at < len(data) and data[0] != ASK:
        raise ValueError("record goes on after its fields")
    if data[0] == FRESH and values[0] > MOST_ENTRIES:
        raise ValueError("a table of %d entries" % values[0])
    if data[0] == ASK and values[1] > MOST_ROOM:
        raise ValueError("room for %d bytes" % values[1])
    return data[0], values, data[at:]
