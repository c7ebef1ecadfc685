"""The listing program: packets in hex on standard input, a table out.

Implements "Listing program" of document 01. Bytes are characters; only a
line feed ends a line. Lines of any length are read in constant memory, since
no more than the first 289 characters of a line are ever kept.

    python3 listing.py < packets > table
"""

import sys

import packets

MOST_CHARACTERS = 288
HEX = frozenset(b"0123456789ABCDEFabcdef")
NAMES = {
    packets.Tr: "TR", packets.MemRead: "MEM", packets.MemWrite: "MEM",
    packets.Cpl: "CPL", packets.CplData: "CPL", packets.Inv: "INV",
    packets.Ic: "IC", packets.Prq: "PRQ", packets.Prs: "PRS",
}


def lines(stream, block=65536):
    """Each line without its line feed, cut after 289 characters."""
    keep = MOST_CHARACTERS + 1
    held = b""
    while True:
        data = stream.read(block)
        if not data:
            break
        *ended, rest = data.split(b"\n")
        for part in ended:
            yield (held + part)[:keep]
            held = b""
        held = (held + rest)[:keep]
    if held:
        yield held


def unhex(line):
    """The bytes that a line spells, or 1 (too long), or 0 (not hex)."""
    if len(line) > MOST_CHARACTERS:
        return 1
    if len(line) % 2 or not HEX.issuperset(line):
        return 0
    return bytes.fromhex(line.decode("ascii"))


def read_line(line):
    """(fields, packet) of a line, or the number that refuses it."""
    packet = unhex(line)
    if isinstance(packet, int):
        return packet
    fields = packets.read(packet)
    if isinstance(fields, int):
        return fields
    return fields, packet


def label(fields):
    """The last column."""
    if isinstance(fields, packets.MemWrite):
        return "-"
    if isinstance(fields, packets.Inv):
        return str(fields.itag)
    if isinstance(fields, packets.Ic):
        return "%08X" % fields.vector
    if isinstance(fields, (packets.Prq, packets.Prs)):
        return str(fields.index)
    return str(fields.tag)


def row(number, line):
    """One line of output, without its line feed."""
    got = read_line(line)
    if isinstance(got, int):
        return "%d\tBAD\t%d\t-" % (number, got)
    fields = got[0]
    return "%d\t%s\t%04X\t%s" % (
        number, NAMES[type(fields)], fields.sender, label(fields))


def listing(source, sink):
    """From one stream of bytes to another."""
    for number, line in enumerate(lines(source), 1):
        sink.write(row(number, line).encode("ascii") + b"\n")


if __name__ == "__main__":
    listing(sys.stdin.buffer, sys.stdout.buffer)
