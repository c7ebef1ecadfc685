"""How often each value of Attr came up, and where.

Two counters: one of the packets that were read and written, by kind and byte
0; one of the calls, by what a received packet of a kind led to, and by what
the Function sent after it. Each must meet all eight values.
"""

import masks
import packets
import records

VALUES = range(len(packets.ATTRS))
# Kinds and each byte 0 they can have.
FORMS = tuple((kind, byte0) for kind, all_byte0 in (
    ("TR", (0x00, 0x20)), ("MEM read", (0x00, 0x20)),
    ("MEM write", (0x40, 0x60)), ("CPL", (0x0A,)), ("CPL data", (0x4A,)),
    ("INV", (0x72,)), ("IC", (0x32,)), ("PRQ", (0x30,)), ("PRS", (0x32,)),
) for byte0 in all_byte0)
# Answers to each kind; the Function takes the last four.
TAKEN = tuple((kind, answer) for kind, answers in (
    ("TR", "R2"), ("MEM read", "R2"), ("MEM write", "R2"), ("IC", "R2"),
    ("PRQ", "R2"), ("CPL", "A O E R3 R4 R5 R7 R8"),
    ("CPL data", "M F X P L R3 R4 R5 R7 R8"),
    ("INV", "D R3 R4 R5 R9 R10"), ("PRS", "D R3 R4 R5 R7"),
) for answer in answers.split())
SENT = ("ask", "read", "write", "drain", "page request")
# By byte 0 and, in messages, byte 7.
FIRST = {(0x0A, None): "CPL", (0x4A, None): "CPL data",
         (0x72, 0x01): "INV", (0x32, 0x05): "PRS"}


def kind_of(c):
    """The kind of a received packet; also of one that was not read."""
    if c.read:
        return records.NAMES[records.code_of(c.packet)]
    byte0 = c.rest[0]
    return FIRST.get((byte0, c.rest[7] if byte0 in packets.CODES else None))


def sent_clear(packet):
    """Fail if the Function has sent an Attr bit."""
    if packet and masks.attr_code(packet):
        raise AssertionError("sent with Attr: %s" % packet.hex())


class Layer:
    """Counts of what was read and written."""

    def __init__(self):
        self.seen = {(name, *form, code): 0 for name in ("reading", "writing")
                     for form in FORMS for code in VALUES}

    def add(self, name, line, text):
        """Count an accepted line; Attr must stand in all three places."""
        first = bytes.fromhex(line.decode("ascii"))
        parts = [bytes.fromhex(part) for part in text.split("\t")]
        if name == "reading":
            packet, record = first, parts[0]
            codes = {masks.attr_code(parts[1])}
        else:
            packet, record, codes = parts[0], first, set()
        codes |= {masks.attr_code(packet), record[2]}
        if len(codes) != 1:
            raise AssertionError("Attr is lost: %r" % line)
        self.seen[name, records.NAMES[record[0]], packet[0], record[2]] += 1

    def faults(self):
        """What never came."""
        for (name, kind, byte0, code), count in self.seen.items():
            if not count:
                yield "never seen: %s, %s %02Xh with Attr %d" % (
                    name, kind, byte0, code)

    def line(self):
        """What the table comes to."""
        return "Attr of packets: %d, the rarest seen %d times" % (
            len(self.seen), min(self.seen.values()))


class Received:
    """Counts of received packets and of what was sent after them."""

    def __init__(self):
        self.taken = {(*pair, code): 0 for pair in TAKEN for code in VALUES}
        self.sent = {(row, code): 0 for row in SENT for code in VALUES}
        self.last = None        # Attr of the last packet that was taken

    def add(self, c):
        """Count one call."""
        if c.row in SENT and c.answer[0] != "R" and c.answer != "C0":
            if self.last is not None:
                self.sent[c.row, self.last] += 1
        if c.name != "receive" or len(c.rest) < packets.SHORTEST:
            return
        code = masks.attr_code(c.rest)
        key = kind_of(c), c.answer, code
        if key in self.taken:
            self.taken[key] += 1
        if c.answer[0] != "R":
            self.last = code

    def faults(self):
        """What never came."""
        for (kind, answer, code), count in self.taken.items():
            if not count:
                yield "never seen: %s with Attr %d, %s" % (kind, code, answer)
        for (row, code), count in self.sent.items():
            if not count:
                yield "never seen: %s after Attr %d" % (row, code)

    def line(self):
        """What the tables come to."""
        return ("Attr of received packets: %d, the rarest seen %d times; "
                "packets sent after: %d, the rarest %d times") % (
                    len(self.taken), min(self.taken.values()),
                    len(self.sent), min(self.sent.values()))


def unshown(lines, rows):
    """The kinds whose listing was seen to be the same for all eight values.

    Fails if two lines that differ in Attr alone are listed otherwise.
    """
    groups = {}
    for packet, row in zip(lines, rows):
        if packet is None:
            continue
        label = row.split("\t", 1)[1]
        got = groups.setdefault(masks.with_attr(packet, 0), (label, set()))
        if got[0] != label:
            raise AssertionError("Attr is listed: %s" % packet.hex())
        got[1].add(masks.attr_code(packet))
    return {label.split("\t")[0] for label, codes in groups.values()
            if len(codes) == len(VALUES)}
