"""Which bits of each packet have a name, from the table of document 01.

Written by hand from the table and the paragraph above it, apart from the
reader and the writer, so that they can be checked against it. A form is a
kind with one byte 0. A 1 bit is named; payload is named throughout. TD and EP
(C0 of byte 2) are named everywhere, and so is Attr since request a) (04 of
byte 1, 30 of byte 2); AT (0C) in TR and MEM, Length (03 FF) in TR, MEM, CPL
with data and INV.
"""

ATTR = bytes.fromhex("000430")  # of every form

NAMED = {form: bytes.fromhex(text) for form, text in (
    #         0 1 2 3  4 5 6 7  8 91011 12131415 16.. (INV body)
    ("TR32", "FF74FFFF FFFFFFFF FFFFF001"),
    ("TR64", "FF74FFFF FFFFFFFF FFFFFFFF FFFFF001"),
    ("RD32", "FF74FFFF FFFFFFFF FFFFFFFC"),
    ("RD64", "FF74FFFF FFFFFFFF FFFFFFFF FFFFFFFC"),
    ("WR32", "FF74FFFF FFFF00FF FFFFFFFC"),
    ("WR64", "FF74FFFF FFFF00FF FFFFFFFF FFFFFFFC"),
    ("CPL",  "FF74F000 FFFFEFFF FFFFFF7F"),
    ("CPLD", "FF74F3FF FFFFEFFF FFFFFF7F"),
    ("INV",  "FF74F3FF FFFF1FFF FFFF0000 00000000 FFFFFFFF FFFFF800"),
    ("IC",   "FF74F000 FFFF00FF FFFF0007 FFFFFFFF"),
    ("PRQ",  "FF74F000 FFFF00FF FFFFFFFF FFFFFFFF"),
    ("PRS",  "FF74F000 FFFF00FF FFFFF1FF 00000000"),
)}


def named(form, packet):
    """The mask for a whole packet of this form."""
    mask = NAMED[form]
    return mask + b"\xFF" * (len(packet) - len(mask))


def without_ignored(form, packet):
    """The packet with every unnamed bit cleared."""
    return bytes(a & m for a, m in zip(packet, named(form, packet)))


def with_ignored(form, packet, noise):
    """The packet with unnamed bits taken from noise."""
    return _mixed(packet, noise, named(form, packet))


def with_noise(form, packet, noise):
    """The packet with unnamed bits and Attr taken from noise."""
    mask = named(form, packet)
    head = bytes(m & ~a for m, a in zip(mask, ATTR))
    return _mixed(packet, noise, head + mask[len(ATTR):])


def _mixed(packet, noise, mask):
    """The packet where the mask has ones, noise where it has zeros."""
    return bytes(a & m | n & ~m & 0xFF
                 for a, m, n in zip(packet, mask, noise))


def attr_code(packet):
    """Attr as it stands in a packet, as a number from 0 to 7."""
    return (packet[1] & 0x04) | (packet[2] & 0x30) >> 4


def with_attr(packet, code):
    """The packet with these Attr bits, nothing else changed."""
    return (packet[:1] + bytes([packet[1] & 0xFB | code & 4,
                                packet[2] & 0xCF | (code & 3) << 4])
            + packet[3:])
