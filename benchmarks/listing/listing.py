#!/usr/bin/env python3
"""The listing in Python."""
import sys

HEX = set(b"0123456789ABCDEFabcdef")


class Refused(Exception):
    pass


def demand(number, test):
    if not test:
        raise Refused(number)


def form_of(b):
    first = b[0]
    if first in (0x00, 0x20):
        return "read"
    if first in (0x40, 0x60):
        return "write"
    if first == 0x0A:
        return "cpl"
    if first == 0x4A:
        return "cpld"
    form = {(0x72, 1): "inv", (0x32, 2): "ic", (0x30, 4): "prq", (0x32, 5): "prs"}.get((first, b[7]))
    demand(2, form)
    return form


def read_packet(b):
    demand(1, 12 <= len(b) <= 144)
    form = form_of(b)
    wide = b[0] in (0x20, 0x60)
    words = (b[2] & 3) << 8 | b[3]
    dwords = words or 1024
    header = 16 if wide or form in ("inv", "ic", "prq", "prs") else 12
    demand(1, len(b) == header + (4 * dwords if form in ("write", "cpld", "inv") else 0))
    demand(3, b[2] < 64)
    at = b[2] >> 2 & 3
    if wide:
        demand(4, any(b[8:12]))
    if form == "read" and at == 1:
        demand(4, b[7] == 0xFF and words % 2 == 0 and dwords <= 32)
        return "TR", str(b[6])
    if form in ("read", "write"):
        demand(4, at % 2 == 0 and b[7] == (0x0F if words == 1 else 0xFF) and dwords <= 32)
        return "MEM", str(b[6]) if form == "read" else "-"
    if form == "cpl":
        demand(4, b[6] >> 5 != 2)
        return "CPL", str(b[10])
    if form == "cpld":
        demand(4, b[6] >> 5 == 0 and dwords <= 32)
        return "CPL", str(b[10])
    if form == "inv":
        body = int.from_bytes(b[16:24], "big")
        demand(4, words == 2 and not (body & 0x800 and body >> 12 == 2**52 - 1))
        return "INV", str(b[6] & 31)
    if form == "ic":
        return "IC", b[12:16].hex().upper()
    demand(4, b[1] >> 4 & 7 == 0)
    if form == "prq":
        return "PRQ", str(int.from_bytes(b[14:16], "big") >> 3 & 511)
    return "PRS", str(int.from_bytes(b[10:12], "big") & 511)


def read_line(line):
    demand(1, len(line) <= 288)
    demand(0, len(line) % 2 == 0 and HEX.issuperset(line))
    b = bytes.fromhex(line.decode("ascii"))
    kind, label = read_packet(b)
    return "%s\t%s\t%s" % (kind, b[4:6].hex().upper(), label)


for number, line in enumerate(sys.stdin.buffer, 1):
    try:
        answer = read_line(line[:-1] if line.endswith(b"\n") else line)
    except Refused as e:
        answer = "BAD\t%d\t-" % e.args
    sys.stdout.write("%d\t%s\n" % (number, answer))
