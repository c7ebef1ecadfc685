"""Random valid packets of every form, and small tools to change them.

A form is one row of masks.NAMED: a kind with one byte 0.
"""

from dataclasses import replace

import masks
import packets

FORMS = tuple(masks.NAMED)
# The kind (as in records.NAMES) of each form.
KIND = {
    "TR32": "TR", "TR64": "TR", "RD32": "MEM read", "RD64": "MEM read",
    "WR32": "MEM write", "WR64": "MEM write", "CPL": "CPL",
    "CPLD": "CPL data", "INV": "INV", "IC": "IC", "PRQ": "PRQ", "PRS": "PRS",
}
MESSAGES = ("INV", "IC", "PRQ", "PRS")
WITH_PAYLOAD = ("WR32", "WR64", "CPLD")
ALL_STATUSES_READ = (0, 1, 3, 4, 5, 6, 7)


def lengths(form):
    """The Lengths allowed in a form, empty if it has none of its own."""
    if form in ("TR32", "TR64"):
        return tuple(range(2, 33, 2))
    if form in ("RD32", "RD64", "WR32", "WR64", "CPLD"):
        return tuple(range(1, 33))
    return ()


def address(rng, wide, step):
    """A random address of the 32-bit or the 64-bit form."""
    value = rng.bits(32)
    if wide:
        value |= (rng.bits(32) | 1 << rng.below(32)) << 32
    return value - value % step


def fields(rng, form, length=None):
    """Random valid fields with Attr zero; a Length may be asked for."""
    tc, sender = rng.below(8), rng.bits(16)
    allowed = lengths(form)
    if allowed and length is None:
        length = rng.pick(allowed[:6])
    wide = form.endswith("64")
    if form.startswith("TR"):
        return packets.Tr(tc, sender, rng.bits(8), length,
                          address(rng, wide, 4096), rng.bits(1))
    if form.startswith("RD"):
        return packets.MemRead(tc, sender, rng.bits(8), length,
                               address(rng, wide, 4), rng.bits(1))
    if form.startswith("WR"):
        return packets.MemWrite(tc, sender, length,
                                address(rng, wide, 4), rng.bits(1))
    if form == "CPL":
        return packets.Cpl(tc, sender, rng.pick(ALL_STATUSES_READ),
                           rng.bits(12), rng.bits(16), rng.bits(8),
                           rng.bits(7))
    if form == "CPLD":
        return packets.CplData(tc, sender, length, rng.bits(12),
                               rng.bits(16), rng.bits(8), rng.bits(7))
    if form == "INV":
        page = address(rng, rng.bits(1), 4096)
        return packets.Inv(tc, sender, rng.bits(5), rng.bits(16), page,
                           rng.bits(1))
    if form == "IC":
        return packets.Ic(tc, sender, rng.bits(16), rng.bits(3), rng.bits(32))
    if form == "PRQ":
        return packets.Prq(0, sender, address(rng, rng.bits(1), 4096),
                           rng.bits(9), rng.bits(1), rng.bits(1), rng.bits(1))
    return packets.Prs(0, sender, rng.bits(16), rng.bits(4), rng.bits(9))


def payload(rng, record):
    """A random payload of the right length for valid fields."""
    if isinstance(record, (packets.MemWrite, packets.CplData)):
        return rng.data(4 * record.length)
    return b""


def clean(rng, form, length=None):
    """A random valid packet with Attr and every ignored bit zero."""
    record = fields(rng, form, length)
    packet = packets.write(record, payload(rng, record), packets.LONGEST)
    if isinstance(packet, int):
        raise AssertionError("not valid: %r" % (record,))
    return packet


def noisy(rng, form, length=None):
    """A random valid packet with random Attr and ignored bits."""
    packet = clean(rng, form, length)
    return masks.with_noise(form, packet, rng.data(len(packet)))


def ordered(rng, record):
    """The record with random Attr bits."""
    return replace(record, attr=rng.pick(packets.ATTRS))


def poke(packet, at, mask, value):
    """The packet with some bits of one byte changed."""
    out = bytearray(packet)
    out[at] = out[at] & ~mask & 0xFF | value
    return bytes(out)


def flip(packet, bit):
    """The packet with one bit turned, bit 0 the highest of byte 0."""
    out = bytearray(packet)
    out[bit // 8] ^= 0x80 >> bit % 8
    return bytes(out)


def with_length(packet, length):
    """The packet with another Length, nothing else changed."""
    return poke(poke(packet, 2, 0x03, length >> 8), 3, 0xFF, length & 0xFF)


def resized(rng, packet, count):
    """The packet cut or lengthened to so many bytes."""
    return packet[:count] + rng.data(count - len(packet))
