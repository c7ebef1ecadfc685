"""What the script of walks has met, and what it must meet.

Each question is counted under its situation: how its walk ended and at which
level, or which refusal it met and with what kind of packet; beside that, under
what the TR said. Told from the table and the answer line, not by the host.
"""

import masks
import packets
import records

SIZES = {2: "1 GiB", 3: "2 MiB", 4: "4 KiB"}
RIGHTS = {1: "R", 2: "W", 3: "RW"}
# Rooms to be met with each packet: some too short, some not.
SHORT = {"T": (0, 11, 12, 19), "S": (0, 11)}
AMPLE = {"T": (20, 21, 64), "S": (12, 19, 20, 64)}
KINDS = records.NAMES


def possible():
    """All that must come up."""
    out = ["above, level 0"]
    for level in (1, 2, 3, 4):
        out += ["%s, level %d" % (end, level)
                for end in ("missing", "cut inside", "neither")]
        out.append("bit 7 at level %d" % level)
        if level > 1:
            out += ["%s, level %d" % (end, level)
                    for end in ("crossed", "cleared", "loop to the root")]
            out += ["%s, granted %s, No Write %d" % (SIZES[level], rights, no)
                    for rights in RIGHTS.values() for no in (0, 1)
                    if (rights, no) != ("W", 1)]
        if level > 2:
            out += ["%s, level %d" % (end, level)
                    for end in ("crossed, then missing",
                                "crossed, then neither", "loop to itself")]
    out += ["%s, count %d" % (sent, count) for sent in "TS"
            for count in range(5 if sent == "T" else 4)]
    for sent in "TS":
        out += ["%s, TC %d" % (sent, tc) for tc in range(8)]
        out += ["%s, Attr %d" % (sent, code) for code in range(8)]
        out += ["%s, Length %d" % (sent, n) for n in range(2, 33, 2)]
        out += ["%s, Tag %d" % (sent, tag) for tag in range(256)]
        out += ["%s, %d-bit form" % (sent, bits) for bits in (32, 64)]
        out += ["%s, No Write %d" % (sent, no) for no in (0, 1)]
        out += ["room %d, %s" % (room, sent) for room in AMPLE[sent]]
        out += ["17, room %d, %s" % (room, sent) for room in SHORT[sent]]
    out += ["1, short", "1, long", "1, other", "2, byte 0", "2, message"]
    out += ["2, %s" % kind for kind in KINDS if kind != "TR"]
    out += ["3, %s" % kind for kind in KINDS]
    out += ["4, %s" % kind for kind in KINDS if kind != "IC"]
    return out


def kind_of(packet):
    """The kind of a packet whose byte 0, message code and length are good."""
    byte0, at = packet[0], packet[2] >> 2 & 3
    if byte0 in (0x00, 0x20):
        return "TR" if at == 1 else "MEM read"
    if byte0 == 0x32:
        return "IC" if packet[7] == 2 else "PRS"
    return {0x40: "MEM write", 0x60: "MEM write", 0x0A: "CPL",
            0x4A: "CPL data", 0x72: "INV", 0x30: "PRQ"}[byte0]


def refusal(number, packet):
    """The situation of a refusal of reading, or of the kind."""
    if number == 1:
        if len(packet) < packets.SHORTEST:
            return "1, short"
        return "1, other" if len(packet) <= packets.LONGEST else "1, long"
    if number == 2 and packet[0] not in packets.HEADER:
        return "2, byte 0"
    if number == 2 and packet[0] in packets.CODES:
        if packet[7] not in packets.CODES[packet[0]]:
            return "2, message"
    return "%d, %s" % (number, kind_of(packet))


def path_of(table, address, count):
    """[(table number, entry)] of the first entries of a walk."""
    number, out = 0, []
    for level in range(count):
        entry = table[512 * number + (address >> 39 - 9 * level) % 512]
        out.append((number, entry))
        number = entry // 4096 % 2 ** 40
    return out


def ending(table, packet, sent, count, word):
    """All situations of a walk that read so many entries."""
    address = int.from_bytes(packet[8:], "big")
    no_write = address % 2
    path = path_of(table, address, count)
    granted, through = 3, 3
    for _, entry in path:
        through, granted = granted, granted & entry
    for level, (number, entry) in enumerate(path, 1):
        if entry & 3 and entry & 0x80:
            yield "bit 7 at level %d" % level
        if level > 1 and number == 0:
            yield "loop to the root, level %d" % level
        if level > 1 and number == path[level - 2][0] != 0:
            yield "loop to itself, level %d" % level
    if sent == "S":
        number = path[-1][1] // 4096 % 2 ** 40 if path else 0
        yield "missing, level %d" % (count + 1)
        if number == len(table) // 512 and len(table) % 512:
            yield "cut inside, level %d" % (count + 1)
        if not granted:
            yield "crossed, then missing, level %d" % (count + 1)
    elif not path:
        yield "above, level 0"
    elif not path[-1][1] & 3:
        yield "neither, level %d" % count
        if not through:
            yield "crossed, then neither, level %d" % count
    elif not granted:
        yield "crossed, level %d" % count
    elif not word:
        yield "cleared, level %d" % count
    else:
        yield "%s, granted %s, No Write %d" % (SIZES[count], RIGHTS[granted],
                                               no_write)


class Walks:
    """Counts of the questions of the script."""

    def __init__(self):
        self.seen = {what: 0 for what in possible()}
        self.questions = 0
        self.short = 0          # refused with 17

    def add(self, table, room, packet, text, ample):
        """Count one question, its answer, and that with room enough."""
        self.questions += 1
        first, second, *rest = text.split("\t")
        if first != "BAD":
            for what in self.answered(table, room, packet, first,
                                      int(second), bytes.fromhex(rest[0])):
                self.count(what)
        elif second == "17":
            self.count_short(room, ample[0])
        else:
            self.count(refusal(int(second), packet))

    def count(self, what):
        """Count what must come up; fail at what cannot."""
        if what not in self.seen:
            raise AssertionError("cannot come up: " + what)
        self.seen[what] += 1

    def count_short(self, room, sent):
        """A buffer too short for what would have been sent."""
        self.short += 1
        if sent not in SHORT or room >= min(AMPLE[sent]):
            raise AssertionError("17 with room for %d bytes" % room)
        if room in SHORT[sent]:
            self.count("17, room %d, %s" % (room, sent))

    @staticmethod
    def answered(table, room, packet, sent, count, reply):
        """All situations of an answered question."""
        word = int.from_bytes(reply[12:], "big")
        yield from ending(table, packet, sent, count, word)
        yield "%s, count %d" % (sent, count)
        yield "%s, TC %d" % (sent, packet[1] >> 4 & 7)
        yield "%s, Attr %d" % (sent, masks.attr_code(packet))
        yield "%s, Length %d" % (sent, packet[3])
        yield "%s, Tag %d" % (sent, packet[6])
        yield "%s, %d-bit form" % (sent, 64 if packet[0] else 32)
        yield "%s, No Write %d" % (sent, packet[-1] & 1)
        if room in AMPLE[sent]:
            yield "room %d, %s" % (room, sent)

    def table(self):
        """Lines to print: outcomes by level, counts, refusals."""
        yield "walks      " + "".join("%8s" % ("level %d" % n)
                                      for n in range(5))
        for end in ("above", "missing", "cut inside", "neither", "crossed",
                    "cleared"):
            cells = [self.seen.get("%s, level %d" % (end, n), "-")
                     for n in range(5)]
            yield "  %-11s%s" % (end, "".join("%8s" % c for c in cells)[2:])
        for level, size in SIZES.items():
            pages = sum(n for what, n in self.seen.items()
                        if what.startswith(size))
            yield "  %-9s%s%8d" % (size, "%8s" % "-" * level, pages)
        for sent in "TS":
            yield "  %s by count: %s" % (sent, " ".join(
                str(self.seen.get("%s, count %d" % (sent, n), "-"))
                for n in range(5)))
        yield "  refused: " + ", ".join(
            "%d: %d" % (number, sum(
                n for what, n in self.seen.items()
                if what.startswith("%d, " % number)))
            for number in (1, 2, 3, 4)) + ", 17: %d" % self.short
        yield "questions: %d, situations: %d, the rarest seen %d times" % (
            self.questions, len(self.seen), min(self.seen.values()))

    def faults(self):
        """What never came up."""
        for what, seen in self.seen.items():
            if not seen:
                yield "never seen: walks, " + what
