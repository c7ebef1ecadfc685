"""Field records: a packet's fields as a run of bytes, high byte first.

The form of the test files: kind code, TC, Attr (4 for ID-based ordering, 2
for Relaxed Ordering, 1 for No Snoop), sender, a 16-bit length (of the output
buffer to write into, or of the packet that was read), then the fields of the
kind in the order below with their widths in bytes, then payload. Attr is never
above 7: such a byte is no record.
"""

import packets

# Kind code -> class and (field, width) in order.
KINDS = tuple((cls, tuple((part.rstrip("1248"), int(part[-1]))
                          for part in text.split()))
              for cls, text in (
    (packets.Tr, "tag1 length2 address8 no_write1"),
    (packets.MemRead, "tag1 length2 address8 translated1"),
    (packets.MemWrite, "length2 address8 translated1"),
    (packets.Cpl, "status1 byte_count2 requester2 tag1 lower1"),
    (packets.CplData, "length2 byte_count2 requester2 tag1 lower1"),
    (packets.Inv, "itag1 device2 address8 s1"),
    (packets.Ic, "device2 cc1 vector4"),
    (packets.Prq, "address8 index2 l1 w1 r1"),
    (packets.Prs, "device2 code1 index2"),
))
NAMES = ("TR", "MEM read", "MEM write", "CPL", "CPL data",
         "INV", "IC", "PRQ", "PRS")


def code_of(fields):
    """The kind code, 0 to 8."""
    return [cls for cls, _ in KINDS].index(type(fields))


def pack(fields, length, payload):
    """The record of these fields."""
    code = code_of(fields)
    out = bytes([code, fields.tc, fields.attr.code()])
    out += fields.sender.to_bytes(2, "big")
    out += length.to_bytes(2, "big")
    for name, width in KINDS[code][1]:
        out += getattr(fields, name).to_bytes(width, "big")
    return out + payload


def unpack(record):
    """(fields, length, payload) of a record."""
    cls, layout = KINDS[record[0]]
    if record[2] >= len(packets.ATTRS):
        raise ValueError("Attr without a meaning")
    values = {"tc": record[1], "attr": packets.ATTRS[record[2]],
              "sender": int.from_bytes(record[3:5], "big")}
    length = int.from_bytes(record[5:7], "big")
    at = 7
    for name, width in layout:
        if at + width > len(record):
            raise ValueError("record ends inside its fields")
        values[name] = int.from_bytes(record[at:at + width], "big")
        at += width
    return cls(**values), length, record[at:]
