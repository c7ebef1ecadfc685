"""Fixed scripts in which two refusals or more are due at once.

For each call the wrong arguments are combined with each other and with the
states in which a call is refused. Each argument carries the number it asks
for; the answer is the one that document 01's order puts first. No state is
changed between a script's steps, but where a step is taken.
"""

from itertools import combinations, product

from calls import record
from function import TAGS
from samples import poke, with_length
from scripts_calls import (DISABLE, ENABLE, PAGES_OFF, ROOM, TOP, ask, begin,
                           cached, drain, ic, inv, pages_on, raw, read,
                           reset, respond, want_page, write)

PAY = "01020304"
ASK = (6, 12, 11, 17)
READ = (6, 12, 13, 14, 11, 17)
WRITE = (6, 12, 13, 14, 17)
PAGE_REQUEST = (15, 12, 16, 17)
COMPLETION = (1, 3, 4, 5, 7, 8)
INVALIDATE = (1, 3, 4, 5, 10, 9)
RESPONSE = (1, 3, 4, 5, 7)


def first(order, due, otherwise):
    """The answer: the first number that is due, else another answer."""
    for number in order:
        if number in due:
            return "R%d" % number
    return otherwise


# --- ask ------------------------------------------------------------------

# (address, units, numbers due); rooms with the longest packet that fits.
ASKS = ((0x5000, 1, ()), (0x5000, 0, (12,)), (0x5000, 9, (12,)),
        (0x700005000, 257, (12,)), (0x700005000, 2, ()),
        (TOP - 0x1000, 2, (12,)), (TOP - 0x7000, 8, (12,)),
        (TOP - 1, 0, (12,)))
ROOMS = (0, 11, 15, ROOM)


def asks(state):
    """Asks in a state in which these numbers are due anyhow."""
    out = []
    for (address, units, due), room in product(ASKS, ROOMS):
        needs = 12 if address < 1 << 32 else 16
        due = set(due) | set(state) | ({17} if room < needs else set())
        if due:
            out.append((ask(address, units, room=room),
                        first(ASK, due, None)))
    return tuple(out)


OPEN = tuple((ask(0x40000000 + 0x1000 * i), "T%d" % i) for i in range(TAGS))
ASK_ORDER = ("order of an ask's refusals", begin() + asks(()) + (
    (DISABLE, "D"),) + asks((6,)) + ((ENABLE, "D"),) + OPEN + asks((11,)) + (
    (DISABLE, "D"),) + asks((6, 11)))

# --- access ---------------------------------------------------------------

# Units and the rights that they lack; 8000h is not cached. 9000h and B000h
# have U, and A000h is translated to above 4 GiB.
UNITS = ((0x5000, ""), (0x6000, "w"), (0x7000, "r"), (0x8000, "all"),
         (0x9000, ""), (0xA000, "w"), (0xB000, "r"))
HELD = (cached(0, 0x5000, 0x105003) + cached(0, 0x6000, 0x106001)
        + cached(0, 0x7000, 0x107002) + cached(0, 0x9000, 0x7)
        + cached(0, 0xA000, 0x5500000001) + cached(0, 0xB000, 0x6))
# (place in the page, DWORDs, payload too many or few, numbers due).
PLACES = ((0x10, 1, 0, ()), (0x12, 1, 0, (12,)), (0x11, 2, 0, (12,)),
          (0x10, 0, 0, (12,)), (0x10, 33, 0, (12,)), (0xFFC, 2, 0, (12,)),
          (0xFF0, 5, 0, (12,)), (0x10, 1, 4, (12,)), (0x10, 2, -1, (12,)),
          (0x10, 257, 0, (12,)))


def accesses(state, writes):
    """Accesses in a state in which these numbers are due anyhow."""
    out = []
    for (unit, lacks), (at, words, more, due), room in product(
            UNITS, PLACES, (0, 11, ROOM)):
        size = max((4 * words if writes else 0) + more, 0)
        due = set(due) | set(state)
        if lacks == "all":
            due.add(13)
        elif ("w" if writes else "r") in lacks:
            due.add(14)
        if room < 12:
            due.add(17)
        if more < 0 and not writes or words > 32 and unit > 0x8000:
            continue
        if words > 33 and writes:
            continue            # a record has no room for its payload
        if due and writes:
            out.append((write(unit + at, "A5" * size, words, room),
                        first(WRITE, due, None)))
        elif due:
            out.append((read(unit + at, words, "A5" * size, room),
                        first(READ, due, None)))
    return tuple(out)


def some(steps, every, at=0):
    """One step in so many."""
    return steps[at::every]


ACCESS_ORDER = ("order of an access's refusals", begin() + HELD
                + accesses((), False) + accesses((), True) + OPEN
                + some(accesses((11,), False), 2)
                + some(accesses((), True), 5)
                + ((read(0x5000), "R11"), (read(0x5000, room=11), "R11"),
                   (read(0x9000, room=0), "R11"),
                   (write(0x5000, PAY, room=15), "R17"),
                   (write(0x5000, PAY), "D"), (DISABLE, "D"))
                + some(accesses((6, 11), False), 2, 1)
                + some(accesses((6,), True), 3)
                + begin() + HELD + ((DISABLE, "D"),)
                + some(accesses((6,), False), 3)
                + some(accesses((6,), True), 3, 1))

# --- page requests --------------------------------------------------------

# (address, index, flags, numbers due); group 3 waits, group 31 as well.
WANTS = tuple((address, index, flags, due_a + due_i + due_f)
              for address, due_a in ((0x1000, ()), (0x1800, (12,)),
                                     (0x2001, (12,)))
              for index, due_i in ((4, ()), (3, ("waits",)), (31, ("waits",)),
                                   (32, (12,)), (259, (12,)))
              for flags, due_f in ((1, ()), (6, ()), (4, (12,)), (0, (12,))))


def wants(state, on=True):
    """Page requests; 16 is due for a group that waits while on."""
    out = []
    for (address, index, flags, due), room in product(WANTS, (0, 15, ROOM)):
        due = set(due) | set(state)
        if room < 16:
            due.add(17)
        if "waits" in due and on:
            due.add(16)
        if due & {12, 15, 16, 17}:
            out.append((want_page(address, index, flags, room),
                        first(PAGE_REQUEST, due, None)))
    return tuple(out)


WAITING = ((want_page(0x1000, 3, 5), "D"), (want_page(0x1000, 31, 6), "D"))
ONS = (0, 513, 514, 1024, 1025, 1536, 0x8001, 0xFFFF)


def ons(answers):
    """Switching on with bad and with good allocations."""
    bad, good = answers
    return (*((pages_on(n), bad) for n in ONS), (pages_on(1), good),
            (pages_on(512), good))


PAGE_ORDER = ("order of the page interface's refusals", (
    (reset(), "D"), (PAGES_OFF, "D"),) + some(wants((15,), False), 4) + tuple(
    (pages_on(n), "R12") for n in ONS) + ((pages_on(3), "D"),) + WAITING
    + some(wants(()), 2) + ons(("R12", "R12")) + (
    (want_page(0x1000, 5, 1), "D"),) + some(wants((16,)), 2, 1) + (
    (respond(7, 2), "D"),) + some(wants((15,), False), 4, 1)
    + ons(("R15", "R15")) + ((PAGES_OFF, "D"),) + ons(("R15", "R15"))
    + some(wants((15,), False), 4, 2) + ((reset(33), "R12"),)
    + ons(("R15", "R15")) + (
    (reset(0, 0), "R12"), (reset(0, 32), "R12"), (reset(0, 96), "R12"),
    (reset(0, 127), "R12"), (reset(32, 128), "R12"), (reset(63), "R12"),
    (reset(0, 0), "R12"), (reset(0, 32), "R12"), (reset(), "D"),
    (pages_on(512), "D"), (reset(0, 128), "D"), (pages_on(1), "D")))

# --- received packets -----------------------------------------------------


def longer(packet):
    """1."""
    return packet + bytes(4)


def cut(packet):
    """1."""
    return packet[:-1]


def with_td(packet):
    """3."""
    return poke(packet, 2, 0xC0, 0x80)


def with_ep(packet):
    """3."""
    return poke(packet, 2, 0xC0, 0x40)


def alien(packet):
    """5."""
    return poke(packet, 9, 0x01, 0x01 ^ packet[9] & 1)


def alien_high(packet):
    """5."""
    return poke(packet, 8, 0x80, 0x80 ^ packet[8] & 0x80)


def other_tag(tag):
    """7, for a tag that is not open."""
    return lambda packet: poke(packet, 10, 0xFF, tag)


def bits(at, mask, value):
    """Some bits of a byte set to a value."""
    return lambda packet: poke(packet, at, mask, value)


def all_ones(packet):
    """4: an INV without a size."""
    return packet[:16] + b"\xFF" * (len(packet) - 16)


def combined(text, order, wrongs):
    """A packet made wrong in one way or in several at once.

    Each way has its number; of two ways with one number only one is used.
    """
    packet, out = bytes.fromhex(text), []
    for count in range(1, len(wrongs) + 1):
        for chosen in combinations(wrongs, count):
            numbers = [number for number, _ in chosen]
            if len(set(numbers)) < len(numbers):
                continue
            made = packet
            for _, change in sorted(chosen, key=lambda way: -way[0]):
                made = change(made)
            out.append((record("receive", rest=made),
                        first(order, numbers, None)))
    return tuple(out)


def completions(tag):
    """For a TR of two units on a tag and a read of 2 DWORDs on the next.

    Nothing is taken: what is right is made wrong in at least one way.
    """
    ours = "0100%02X00"
    tr, load = ours % tag, ours % (tag + 1)
    free, over = (7, other_tag(29)), (7, other_tag(tag + 32))
    status = (4, bits(6, 0xE0, 0x40))
    beside = (4, bits(6, 0xE0, 0x80))
    no_status, small = (8, bits(6, 0xE0, 0)), (8, bits(7, 0xFF, 4))
    odd = (8, bits(7, 0xFF, 12))
    return (
        combined("0A000000 00082004" + tr, COMPLETION,
                 ((1, longer), (3, with_td), (5, alien), free, no_status))
        + combined("0A000000 00088008" + load, COMPLETION,
                   ((1, cut), (3, with_ep), (5, alien_high), over,
                    no_status))
        + combined("0A000000 00082004" + tr, COMPLETION,
                   ((1, longer), (3, with_ep), status, (5, alien), over))
        + combined("0A000000 00088008" + load, COMPLETION,
                   ((1, longer), (3, with_td), status, (5, alien_high),
                    free))
        + combined("4A000002 00080008" + load + PAY * 2, COMPLETION,
                   ((1, longer), (3, with_td), beside, (5, alien_high),
                    over, small))
        + combined("4A000001 00080008" + load + PAY, COMPLETION,
                   ((3, with_ep), (5, alien), free, (8, bits(6, 0x0F, 1))))
        + combined("4A000003 0008000C" + load + PAY * 3, COMPLETION,
                   ((5, alien), (8, lambda packet: packet)))
        + combined("4A000002 00080008" + tr[:6] + "38" + "00000000 00009003",
                   COMPLETION, ((1, cut), (3, with_ep), beside, (5, alien),
                                free, odd)))


# ITag 6 waits; agent 0008h.
INVS = (combined("72000002 00080501 01000000 00000000 00000000 00005000",
                 INVALIDATE, ((1, longer), (3, with_td), (4, all_ones),
                              (5, alien), (10, bits(5, 0xFF, 9)),
                              (9, bits(6, 0x1F, 6))))
        + combined("72000002 00081F01 01000000 00000000 0000000A 00001800",
                   INVALIDATE, ((1, cut), (3, with_ep),
                                (4, lambda p: with_length(
                                    p + b"\0" * 4, 3)), (5, alien_high),
                                (10, bits(4, 0xFF, 9)),
                                (9, bits(6, 0x1F, 6)))))


def responses(number, *ways):
    """Responses that are 7 in this state, by index and code."""
    out = ()
    for index, code in ways:
        out += combined("32000000 00080005 0100%X%03X 00000000"
                        % (code, index), RESPONSE,
                        ((1, longer), (3, with_td),
                         (4, bits(1, 0x70, 0x10)), (5, alien),
                         (number, lambda packet: packet)))
    return tuple(step for step in out if step[1] is not None)


def others(text, forbidden=None):
    """Packets of a kind that is not received: 1, 3, 4, then 2."""
    ways = [(1, cut), (3, with_td), (2, lambda packet: packet)]
    if forbidden:
        ways.append((4, forbidden))
    return combined(text, (1, 3, 4, 2), tuple(ways))


def unpaired(text, code):
    """A message whose code is not paired with it: 2 before 1, 3, 5."""
    return combined(text, (2, 1, 3, 5), (
        (2, bits(7, 0xFF, code)), (1, longer), (3, with_ep), (5, alien)))


KINDS = (
    others("00000402 010000FF 00203000", bits(7, 0xFF, 0x0F))
    + others("20000402 010000FF 00000001 00203000", bits(3, 0xFF, 0x03))
    + others("00000801 0100000F 40003000", bits(2, 0x0C, 0x0C))
    + others("20000802 010000FF 00000001 40003000", bits(11, 0xFF, 0))
    + others("40000801 0100000F 40003000" + PAY, bits(2, 0x0C, 0x04))
    + others("60000801 0100000F 00000001 40003000" + PAY,
             bits(11, 0xFF, 0))
    + others("30000000 01000004 00000000 0020301D", bits(1, 0x70, 0x70))
    + others("32000000 00080002 01000001 00000001")
    + others("32000000 00080002 02000001 00000001")
    + others("32000000 00080002 01010001 00000001")
    + unpaired("72000002 00080501 01000000 00000000 00000000 00005000", 5)
    + unpaired("32000000 00080005 01000003 00000000", 4)
    + unpaired("32000000 00080005 01000003 00000000", 1)
    + tuple((raw(byte0 + "00" * rest), "R1")
            for byte0 in ("FF", "32", "4A", "0A", "72", "01")
            for rest in (0, 10, 144, 250))
    + tuple((raw(byte0 + "00" * rest), "R2")
            for byte0 in ("FF", "01", "32", "72", "30") for rest in (11, 143))
    # Lengths at their bounds, and good in their low byte only.
    + tuple((raw(text), answer) for length, answer in (
        ("20", "R2"), ("22", "R4"), ("00", "R4")) for text in (
        "000004%s 010000FF 00203000" % length,
        "200004%s 010000FF 00000001 00000000" % length,
        "000008%s 010000FF 00203000" % length,
        "200000%s 010000FF 00000001 00000000" % length))
    + tuple((raw(text), answer) for length, answer in (
        ("0021", "R4"), ("0102", "R4"), ("0222", "R4")) for text in (
        "0000%s 010000FF 00203000" % length,
        "2000%s 010000FF 00000001 00203000" % length))
    + tuple((raw("4A00%s 00080004 01000100 01020304" % length), "R1")
            for length in ("0101", "0201", "0301"))
    + tuple((raw("7200%s 00080501 01000000 00000000 00000000 00005000"
                 % length), "R1") for length in ("0102", "0202", "0302"))
    + tuple((raw(text % at), "R4") for at in ("04", "0C") for text in (
        "4000%s01 0100000F 40003000" + PAY,
        "4000%s02 010000FF 40003000" + PAY * 2,
        "6000%s02 010000FF 00000001 40003000" + PAY * 2,
        "6000%s04 010000FF 00000001 40003000" + PAY * 4))
    + ((raw("4A000022 00080088 01000000" + "00" * 133), "R1"),
       (raw("4A000021 00080084 01000000" + "00" * 132), "R4"),
       (raw("40000021 010000FF 40003000" + "00" * 132), "R4")))

RECEIVED_ORDER = ("order of a received packet's refusals", begin()
    + cached(0, 0x5000, 0x9003) + (
    (ask(0x5000, 2), "T0"), (read(0x5000, 2), "T1"),) + completions(0) + (
    (inv(6, 0x70000), "D"),) + INVS + (
    (drain(), "C1", ic("00000040")), (inv(6, 0x70000), "D"), (DISABLE, "D"),
    ) + some(completions(0), 7) + some(INVS, 3, 1) + responses(
        7, (3, 0), (31, 1), (288, 15)) + (
    (pages_on(2), "D"), (want_page(0x1000, 3, 5), "D"),
    (want_page(0x1000, 4, 1), "D")) + responses(
        7, (4, 0), (5, 1), (259, 0), (35, 1)) + KINDS + (
    (respond(3, 2), "D"),) + responses(7, (3, 0), (3, 7), (511, 2)) + begin()
    + cached(0, 0x5000, 0x9003) + tuple(
        (ask(0x1000 * i, 2), "T%d" % i) for i in range(29)) + (
    (ask(0x70000), "T29"), (ask(0x70000, 2), "T30"),
    (read(0x5000, 2), "T31"), (record("receive", rest=bytes.fromhex(
        "0A000000 00088004 01001D00")), "A"))
    + some(completions(30), 3))

SCRIPTS = (ASK_ORDER, ACCESS_ORDER, PAGE_ORDER, RECEIVED_ORDER)
