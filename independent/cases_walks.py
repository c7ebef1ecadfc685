"""Scripts of walks: tables built by records, then questions to the host.

Each case is (line, answer wanted). The answer is worked out from how the case
was made, its bytes laid out here and not by packets.py; it is None where
chance decides. The generator fails if the host says otherwise. A table is
built once and asked many questions, to keep the script short.
"""

import host
import masks
import packets
from cases_reading import (forbidden_alone, mutated, pairs, poisoned,
                           whole_lengths)
from drivers import lent
from samples import FORMS, KIND, clean, noisy, poke
from walks import ASK, FRESH, MOST_ENTRIES, PUT, line_of, record

TABLES = 8
DRAWN = 2000                    # questions to each dense table
NONE, R, W, RW = 0, 1, 2, 3
BIT_7 = 0x80
NAMED = 0x000FFFFFFFFFF083      # R, W, bit 7 and bits 51:12
ALL = (1 << 64) - 1
# What a page of each last level puts below its address, beside its rights,
# and which bits of an entry are its address.
CODE = {2: 0x1FFFF800, 3: 0xFF800, 4: 0}
FRAME = {2: 0x000FFFFFC0000000, 3: 0x000FFFFFFFE00000, 4: 0x000FFFFFFFFFF000}
LAST = (2, 3, 4)
# Lengths of the lent table about each table's end.
CUTS = (0, 1, 2, 255, 511, 512, 513, 1023, 1024, 1025, 1535, 1536, 1537, 2047,
        2048, 2049, 2559, 2560, 4095, 4096)
# Numbers of tables that no table lent here has, some that would seem to if
# arithmetic lost bits.
FAR = (8, 9, 15, 16, 256, 511, 512, 1 << 16, (1 << 23) - 1, 1 << 23,
       (1 << 31) - 1, 1 << 31, (1 << 32) - 1, 1 << 32, 1 << 39,
       (1 << 39) + 1, (1 << 40) - 2, (1 << 40) - 1)
ROOMS = (0, 1, 7, 8, 11, 12, 13, 16, 19, 20, 21, 40, 64)
# Rooms with which questions are asked where room is no matter.
WIDE_ROOMS = (20, 20, 20, 20, 21, 22, 24, 32)
HOSTS = (0x0000, 0x0008, 0x0100, 0xABCD, 0xFFFF)


# --- answers --------------------------------------------------------------

def page(level, entry, rights):
    """The translation that the last entry of a walk gives."""
    return entry & FRAME[level] | CODE[level] | rights


def laid_out(host_id, packet, word):
    """The reply to a TR; a word of None is status 100."""
    ours = host_id.to_bytes(2, "big")
    theirs = packet[4:7]        # Requester ID and Tag
    tc = packet[1] & 0x70
    if word is None:
        return (bytes([0x0A, tc, 0, 0]) + ours
                + bytes([0x80, 4 * packet[3]]) + theirs + b"\x00")
    return (bytes([0x4A, tc, 0, 2]) + ours + bytes([0, 8]) + theirs
            + b"\x78" + word.to_bytes(8, "big"))


def refused(number, room):
    """The answer to a question that is refused."""
    return "BAD\t%d\t%s" % (number, lent(room).hex().upper())


def answered(host_id, room, packet, count, word):
    """The answer to a TR, if there is room for it."""
    reply = laid_out(host_id, packet, word)
    if len(reply) > room:
        return refused(17, room)
    return "%s\t%d\t%s\t%s" % ("S" if word is None else "T", count,
                               reply.hex().upper(),
                               lent(room)[len(reply):].hex().upper())


# --- writing a script -----------------------------------------------------

class Writer:
    """Writes the script, and knows the table as it has become."""

    def __init__(self, rng):
        self.rng = rng
        self.table = []
        self.cases = []

    def fresh(self, length):
        """A new table."""
        self.table = [0] * length
        self.cases.append((line_of(record(FRESH, length)), "-"))

    def put(self, index, value):
        """Set an entry, if it is lent."""
        if index < len(self.table) and self.table[index] != value:
            self.table[index] = value
            self.cases.append((line_of(record(PUT, index, value)), "-"))

    def entry(self, number, index, value):
        """Set an entry of one of the tables, its unnamed bits at random."""
        noise = self.rng.bits(64) & ~NAMED & ALL
        self.put(512 * number + index, noise | value & NAMED)

    def lead(self, tables, path, rights=(RW,) * 4):
        """Set the entries that lead from each of these tables to the next."""
        for at, number in enumerate(tables[1:]):
            self.entry(tables[at], path[at], number << 12 | rights[at])

    def chain(self, tables, path, last, rights=(RW,) * 4):
        """Set the entries of one walk, which ends in the last of the tables.

        The last entry gets the value as its address, and bit 7 if it ends
        the walk early.
        """
        self.lead(tables, path, rights)
        at = len(tables) - 1
        ends = BIT_7 if at < 3 else 0
        self.entry(tables[at], path[at], last & ~RW | ends | rights[at])

    def request(self, address, no_write=0, tc=None, tag=None, length=None):
        """A TR; what is not given is drawn, Attr and unnamed bits too."""
        rng = self.rng
        fields = packets.Tr(
            rng.below(8) if tc is None else tc, rng.bits(16),
            rng.bits(8) if tag is None else tag,
            length or rng.between(1, 16) * 2, address & ~0xFFF, no_write)
        form = "TR64" if address >> 32 else "TR32"
        packet = packets.write(fields, b"", packets.LONGEST)
        return masks.with_noise(form, packet, rng.data(16))

    def give(self, packet, want, room=None, host_id=None):
        """Ask with a packet; want is a number, a (count, word), or None."""
        rng = self.rng
        if room is None:
            room = rng.pick(WIDE_ROOMS)
        if host_id is None:
            host_id = rng.pick(HOSTS + (rng.bits(16),) * 5)
        text = want
        if isinstance(want, int):
            text = refused(want, room)
        elif want is not None:
            text = answered(host_id, room, packet, *want)
        self.cases.append((line_of(record(ASK, host_id, room,
                                          packet=packet)), text))

    def ask(self, address, count, word, no_write=0, **given):
        """Ask for an address: so many entries read, and this translation."""
        self.give(self.request(address, no_write, **given), (count, word))

    def path(self, narrow=None):
        """Four indexes; some fit an address of 32 bits."""
        rng = self.rng
        if narrow is None:
            narrow = rng.bits(2) == 0
        edge = (0, 1, 255, 256, 510, 511)
        path = [rng.pick((rng.bits(9), rng.bits(9), rng.pick(edge)))
                for _ in range(4)]
        if narrow:
            path[:2] = 0, path[1] & 3
        return tuple(path)


def address_of(path):
    """The address that these indexes are for."""
    out = 0
    for index in path:
        out = out << 9 | index
    return out << 12


# --- fixed parts ----------------------------------------------------------

def nothing_lent(w):
    """Before any table: an address above 48 bits, and any other."""
    for bit in range(48, 64):
        w.ask(1 << bit, 0, 0, bit & 1)
        w.ask(1 << bit | w.rng.bits(48), 0, 0, w.rng.bits(1))
    for address in (1 << 48, ALL, (1 << 48) + 4096, 0xFFFF800000000000):
        for no_write in (0, 1):
            w.ask(address, 0, 0, no_write)
    for address in (0, 4096, 0xFFFFF000, 1 << 32, 1 << 39, 1 << 47,
                    (1 << 48) - 4096, (1 << 48) - 1):
        for no_write in (0, 1):
            w.ask(address, 0, None, no_write)


def above(w):
    """An address above 48 bits where the table has an entry for the rest."""
    w.fresh(2048)
    path = w.path()
    w.chain((0, 1, 2, 3), path, 0x123456789A000)
    w.ask(address_of(path), 4, 0x123456789A003)
    for bit in range(48, 64):
        w.ask(address_of(path) | 1 << bit, 0, 0, bit & 1)


def cut(w):
    """Tables of every length about the ends of tables, in any order."""
    for length in CUTS:
        w.fresh(length)
        for tables in ((0, 1, 2, 3), (0, 2, 1, 3), (0, 3, 2, 1),
                       (0, 4, 3, 7), (0, 7, 6, 5)):
            for path in (w.path(), (511,) * 4, (0,) * 4, w.path(True)):
                frame = w.rng.bits(64)
                w.chain(tables, path, frame)
                short = [n for n, k in enumerate(tables)
                         if 512 * (k + 1) > length]
                if short:
                    w.ask(address_of(path), short[0], None, w.rng.bits(1))
                else:
                    w.ask(address_of(path), 4, page(4, frame, RW))


def far(w):
    """Numbers of tables far beyond what is lent, from each level."""
    for length in (MOST_ENTRIES, 512):
        w.fresh(length)
        for number in FAR:
            for level in (1, 2, 3):
                tables = (0, 1, 2)[:level] + (number,)
                path = w.path()
                if length == 512 and level > 1:
                    continue
                w.lead(tables, path)
                w.ask(address_of(path), level, None, w.rng.bits(1))


def stops(w):
    """An entry with neither right at each level, whatever else it says."""
    w.fresh(2048)
    for level in (1, 2, 3, 4):
        for value in (0, ALL & ~RW, BIT_7, 1 << 12, 3 << 12, 9 << 12,
                      w.rng.bits(64) & ~RW, (w.rng.bits(64) | BIT_7) & ~RW):
            for rights in (RW, R, W):
                path = w.path()
                tables = (0, 1, 2, 3)[:level]
                w.lead(tables, path, (RW,) * (level - 2) + (rights,))
                w.entry(tables[-1], path[level - 1], value)
                w.ask(address_of(path), level, 0, w.rng.bits(1))


def all_rights(w):
    """Every choice of rights of every entry, for all three sizes of page."""
    for last in LAST:
        w.fresh(512 * last)
        at = [w.rng.below(509) for _ in range(4)]
        frames = {}
        for level in range(1, last + 1):
            for rights in (R, W, RW):
                value = level << 12
                if level == last:
                    value = w.rng.bits(64) & ~BIT_7
                    value |= BIT_7 if last < 4 else 0
                    frames[rights] = value
                elif level == 1:
                    value |= BIT_7
                w.entry(level - 1, at[level - 1] + rights,
                        value & ~RW | rights)
        for code in range(3 ** last):
            choice = [code // 3 ** n % 3 + 1 for n in range(last)]
            path = tuple(a + c for a, c in zip(at, choice))
            path += (w.rng.bits(9),) * (4 - last)
            granted = RW
            for rights in choice:
                granted &= rights
            for no_write in (0, 1):
                left = granted & R if no_write else granted
                w.ask(address_of(path), last,
                      page(last, frames[choice[-1]], left) if left else 0,
                      no_write)


def crossed(w):
    """R above and W below: the next table missing, present, or a stop."""
    w.fresh(2048)
    for upper, lower in ((R, W), (W, R)):
        for first in (1, 2):
            for second in range(first + 1, 4):
                rights = [RW] * 4
                rights[first - 1], rights[second - 1] = upper, lower
                for no_write in (0, 1):
                    tables = (0, 1, 2)[:second] + (w.rng.pick(FAR),)
                    path = w.path()
                    w.lead(tables, path, rights)
                    w.ask(address_of(path), second, None, no_write)
                    path = w.path()
                    w.chain((0, 1, 2, 3), path, ALL, rights)
                    w.ask(address_of(path), 4, 0, no_write)
                    path = w.path()
                    w.chain((0, 1, 2, 3)[:second + 1], path, 0,
                            rights[:second] + [NONE])
                    w.ask(address_of(path), second + 1, 0, no_write)
        for last in LAST:
            for no_write in (0, 1):
                path = w.path()
                rights = (RW,) * (last - 2) + (upper, lower)
                w.chain((0, 1, 2, 3)[:last], path, ALL, rights)
                w.ask(address_of(path), last, 0, no_write)


def bit_7(w):
    """Bit 7 at each level: it means something at two of them."""
    w.fresh(2048)
    for _ in range(6):
        for which in range(16):
            path, values = w.path(), []
            for level in (1, 2, 3, 4):
                value = level << 12 | RW | w.rng.bits(64) & ~NAMED
                if which >> level - 1 & 1:
                    value |= BIT_7
                if level == 4:
                    value |= w.rng.bits(64) & FRAME[4]
                w.put(512 * (level - 1) + path[level - 1], value & ALL)
                values.append(value)
            last = 2 if which & 2 else 3 if which & 4 else 4
            w.ask(address_of(path), last, page(last, values[last - 1], RW))


def frames(w):
    """Addresses of pages: each bit alone, all, those below the size too."""
    w.fresh(2048)
    for last in LAST:
        path = w.path()
        w.chain((0, 1, 2, 3)[:last], path, 0)
        at = 512 * (last - 1) + path[last - 1]
        ends = RW | (BIT_7 if last < 4 else 0)
        values = [1 << bit for bit in range(64) if bit not in (0, 1, 7)]
        values += [ALL & ~(1 << bit) for bit in range(12, 52)]
        values += [ALL, FRAME[last], ALL & ~FRAME[last], 0]
        values += [w.rng.bits(64) for _ in range(12)]
        for value in values:
            value = value & ~(RW | BIT_7) | ends
            w.put(at, value)
            w.ask(address_of(path), last, page(last, value, RW))


def upper_bits(w):
    """In an entry that leads on only R, W, and bits 51:12 mean anything."""
    w.fresh(2048)
    for level in (1, 2, 3):
        path = w.path()
        frame = w.rng.bits(64)
        w.chain((0, 1, 2, 3), path, frame)
        for bit in [*range(2, 12), *range(12, 64)]:
            if bit == 7 and level != 1:
                continue
            value = level << 12 | RW
            w.put(512 * (level - 1) + path[level - 1], value ^ 1 << bit)
            number = level ^ (1 << bit >> 12 if bit < 52 else 0)
            if number >= 4:
                w.ask(address_of(path), level, None)
            elif number == level:
                w.ask(address_of(path), 4, page(4, frame, RW))


def neighbours(w):
    """Entries beside the one that is right lead elsewhere, bit by bit."""
    w.fresh(2048)
    path = (0b101010101, 0b010101010, 0b110011001, 0b001100110)
    w.chain((0, 1, 2, 3), path, 0xABCDE000)
    w.ask(address_of(path), 4, 0xABCDE003)
    for bit in range(12, 48):
        # The root is four levels from the page, the last table one.
        level = 4 - (bit - 12) // 9
        other = address_of(path) ^ 1 << bit
        w.ask(other, level, 0)
        index = other >> 12 + 9 * (4 - level) & 0x1FF
        frame = w.rng.bits(64)
        if level == 4:
            w.entry(3, index, frame & ~RW | R)
            w.ask(other, 4, page(4, frame, R))
        elif level > 1:
            w.entry(level - 1, index, frame & ~RW | BIT_7 | W)
            w.ask(other, level, page(level, frame, W))
        else:
            w.entry(0, index, 1 << 12 | R)
            w.ask(other, 4, 0xABCDE001)


def loops(w):
    """Tables that lead to the root and to themselves."""
    for number in range(TABLES):
        w.fresh(512 * (number + 1))
        one = w.rng.below(510)
        two, three = one + 1, one + 2
        # From the root into a table that leads to itself.
        w.entry(0, one, number << 12 | RW)
        w.entry(number, one, number << 12 | R)
        w.ask(address_of((one,) * 4), 4, number << 12 | R)
        # The root leads to itself; bit 7 ends it at the second level.
        w.entry(0, two, BIT_7 | RW)
        w.ask(address_of((two,) * 4), 2, CODE[2] | RW)
        w.ask(address_of((two, one, one, one)), 4, number << 12 | R)
        # Down and back to the root.
        w.entry(number, three, RW)
        w.ask(address_of((one, three, one, one)), 4, number << 12 | R)
        if number == 0:
            w.ask(address_of((three,) * 4), 4, RW)
        else:
            w.ask(address_of((three,) * 4), 1, 0)


def shown(w):
    """(address, no_write, count, word) of each way to be answered.

    The first index is 0 or another, so that both forms of TR ask the same.
    """
    w.fresh(2048)
    two, three, four = (w.rng.below(500) for _ in range(3))
    wide, lost, none = 9, 10, 11        # of the root
    pages = {}
    for number, index, value in (
            (0, 0, 1 << 12 | RW), (0, wide, 1 << 12 | RW),
            (0, lost, w.rng.pick(FAR) << 12 | RW), (0, none, 1 << 12),
            (1, 0, 2 << 12 | RW), (1, 3, w.rng.pick(FAR) << 12 | R),
            (1, two + 4, 2 << 12), (2, three, 3 << 12 | RW),
            (2, three + 3, w.rng.pick(FAR) << 12 | W),
            (2, three + 4, 3 << 12), (3, four + 4, w.rng.bits(64) & ~RW)):
        w.entry(number, index, value)
    for last, index in ((2, 1), (3, three + 1), (4, four + 1)):
        for rights in (RW, W):
            frame = w.rng.bits(64)
            pages[last, rights] = frame
            w.entry(last - 1, index + 1 - (rights & 1),
                    frame & ~(RW | BIT_7) | rights | (last < 4) * BIT_7)
    ways = [((two + 4, 0, 0), 2, 0), ((3, 0, 0), 2, None),
            ((0, three + 3, 0), 3, None), ((0, three + 4, 0), 3, 0),
            ((0, three, four + 4), 4, 0)]
    out = [(1 << 48 | w.rng.bits(64), 0, 0, 0), (1 << 63, 1, 0, 0)]
    out += [(address_of((at, *w.path()[1:])), no_write, 1, word)
            for at, word in ((lost, None), (none, 0)) for no_write in (0, 1)]
    for first in (0, wide):
        for path, count, word in ways:
            out += [(address_of((first, *path)), no_write, count, word)
                    for no_write in (0, 1)]
        for (last, rights), frame in pages.items():
            at = 2 - (rights & 1)
            path = ((at, 1, 2), (0, three + at, 3), (0, three, four + at))
            for no_write in (0, 1):
                left = rights & R if no_write else rights
                out.append((address_of((first, *path[last - 2])), no_write,
                            last, page(last, frame, left) if left else 0))
    return out


def rooms(w):
    """Every answer into buffers of every length about the need."""
    for address, no_write, count, word in shown(w):
        for room in ROOMS:
            w.give(w.request(address, no_write), (count, word), room)
    w.fresh(511)
    for room in range(65):
        w.give(w.request(w.rng.bits(48)), (0, None), room)
        w.give(w.request(1 << 48), (0, 0), room)


def requests(w):
    """Every TC, Length and Tag, in both forms, for both kinds of reply."""
    every = shown(w)
    translated = [one for one in every if one[3]]
    aborted = [one for one in every if one[3] is None]
    for some in (translated, aborted):
        for wide in (0, 1):
            mine = [one for one in some if bool(one[0] >> 32) == wide]
            for tag in range(256):
                address, no_write, count, word = mine[tag % len(mine)]
                w.ask(address, count, word, no_write, tc=tag % 8, tag=tag,
                      length=(tag // 8 % 16 + 1) * 2)
    for at, (address, no_write, count, word) in enumerate(every):
        for tc in range(8):
            packet = w.request(address, no_write, tc=tc)
            packet = masks.with_attr(packet, (at + tc) % 8)
            w.give(packet, (count, word), host_id=w.rng.bits(16))


def is_tr(packet):
    """Is a packet that reads a TR?"""
    return packet[0] in (0x00, 0x20) and packet[2] & 0x0C == 0x04


def other_kinds(w):
    """Good packets of every kind but TR, whatever the room."""
    w.fresh(512)
    for form in FORMS:
        if KIND[form] != "TR":
            for room in (0, 11, 12, 19, 20, 64):
                w.give(noisy(w.rng, form), 2, room)
            for tc in range(1 if form in ("PRQ", "PRS") else 8):
                packet = poke(clean(w.rng, form), 1, 0x70, tc << 4)
                w.give(masks.with_attr(packet, w.rng.bits(3)), 2)
    for form in ("TR32", "TR64"):
        for at in (0x00, 0x08):
            for length in range(2, 33, 6):
                w.give(poke(noisy(w.rng, form, length), 2, 0x0C, at), 2)


def unread(w):
    """What reading refuses, whatever the room, and whatever is lent."""
    rng = w.rng
    for length in (0, 512):
        w.fresh(length)
        for part in (forbidden_alone, poisoned, pairs, whole_lengths):
            for form, packet, want in part(rng):
                tr = KIND[form] == "TR"
                if length and not tr:
                    continue
                if len(packet) > 36 and want != 4 and (not tr or length):
                    continue
                if want == "ok":
                    if is_tr(packet):
                        continue
                    want = 2
                w.give(packet, want, rng.pick((0, 11, 12, 20, 20)))
    for value in range(256):
        if value not in packets.HEADER:
            packet = poke(noisy(rng, rng.pick(FORMS)), 0, 0xFF, value)
            w.give(packet[:24], 2, rng.pick((0, 12, 20)))
    for count in range(12):
        w.give(noisy(rng, "TR32")[:count], 1, rng.pick((0, 12, 20)))


# --- drawn ----------------------------------------------------------------

def drawn_entry(rng, tables, root=False):
    """An entry of a dense table: most lead to a table that is lent."""
    value = rng.bits(64) & ~(RW | BIT_7)
    ends = rng.below(4) == 0
    if rng.below(20) >= (15 if ends and not root else 3):
        value = value & ~FRAME[4] | rng.below(tables) << 12
    elif rng.bits(2) == 0:
        value = value & ~FRAME[4] | (tables + rng.below(3)) << 12
    rights = rng.pick((NONE, R, R, W, W) + (RW,) * 15)
    return value | (BIT_7 if ends else 0) | rights


def drawn_address(rng):
    """An address; one in four is of 32 bits, a few are above 48."""
    how = rng.below(32)
    if how < 8:
        return rng.bits(32)
    if how == 8:
        return rng.bits(64) | 1 << rng.between(48, 63)
    return rng.bits(48) | 1 << 32


def drawn_question(w, address=None):
    """A question; a few are of other kinds, broken, or short of room."""
    rng = w.rng
    if address is None:
        address = drawn_address(rng)
    how = rng.below(48)
    if how == 0:
        packet = mutated(rng)[1][:40]
    elif how == 1:
        packet = w.request(address)
        packet = poke(packet, rng.below(8), 0xFF, rng.bits(8))
    else:
        packet = w.request(address, int(rng.bits(2) == 0))
    room = rng.between(11, 20) if how == 2 else None
    w.give(packet, None, room)


def dense(w, length):
    """A table full of drawn entries, and questions to it."""
    tables = -(-length // 512)
    w.fresh(length)
    for index in range(length):
        w.put(index, drawn_entry(w.rng, tables, index < 512))
    for at in range(DRAWN):
        if at % 200 == 0:
            # All addresses of 32 bits go through this one.
            w.entry(0, 0, w.rng.below(length // 512) << 12 | RW)
        drawn_question(w)


def changed(w):
    """Entries of a walk changed by a bit, and entries that it passes by."""
    rng = w.rng
    for _ in range(600):
        address = drawn_address(rng) % (1 << 48)
        word, visits = host.walk(w.table, address, 0)
        if not visits:
            continue
        number, index = rng.pick(visits)
        at = 512 * number + index
        beside = at ^ 1 << rng.below(9)
        if (beside // 512, beside % 512) not in visits:
            w.put(beside, drawn_entry(rng, TABLES))
            w.ask(address, len(visits), word)
        w.put(at, w.table[at] ^ 1 << rng.pick((0, 1, 7, rng.below(64),
                                               rng.between(12, 15))))
        drawn_question(w, address)


def cases(rng):
    """All of them: (line, answer wanted)."""
    w = Writer(rng)
    for part in (nothing_lent, above, cut, far, stops, all_rights, crossed,
                 bit_7, frames, upper_bits, neighbours, loops, rooms,
                 requests, other_kinds, unread):
        part(w)
    dense(w, 2900)
    dense(w, MOST_ENTRIES)
    changed(w)
    return w.cases
