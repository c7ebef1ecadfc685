"""Fixed scripts in which Attr is set in what the Function receives.

One run, once for each of the eight values and once more for each with the
unnamed bits of byte 1 set beside it. The steps and their answers do not
depend on the value: the Function decides nothing by Attr, and sends zeros in
it, also right after it has received something else.
"""

from calls import CALLS
from masks import with_attr
from samples import poke
from scripts_calls import (ENABLE, OTHER, ask, begin, bring, cached,
                           drain, fail, ic, inv, pages_on, raw, read,
                           reply, respond, want_page, write)

BESIDE = 0x8B                   # the unnamed bits of byte 1

# Completions of TRs: in two packets, alone, for a stale TR, without data.
TRANSLATIONS = begin() + (
    (ask(0x5000, 2), "T0", "00000404 010000FF 00005000"),
    (reply(0, 0x9003, count=16), "M"),
    (ask(0x8000), "T1", "00000402 010001FF 00008000"),
    (reply(0, 0xA003, lower=64), "R8"), (reply(0, 0xA003, lower=0), "F"),
    (write(0x6000, "01020304"), "D", "40000801 0100000F 0000A000 01020304"),
    (reply(0, 0xA003), "R7"), (reply(1, 0xB003, 0xB003), "R8"),
    (inv(0, 0x8000), "D"), (reply(1, 0xB003), "X"),
    (drain(), "C1", ic("00000001")),
    (ask(0x8000), "T0", "00000402 010000FF 00008000"),
    (fail(0, 0), "R8"), (fail(0, 4), "A"),
    (ask(0x100000000), "T0", "20000402 010000FF 00000001 00000000"),
    (fail(0, 1), "O"), (ask(0), "R6"), (ENABLE, "D"),
)

# A read that an INV waits for, in two packets; one that fails.
READS = begin() + cached(0, 0x5000, 0x9003, 0xA003) + (
    (read(0x5FF8, 2), "T0", "00000802 010000FF 00009FF8"),
    (read(0x6000), "T1", "00000801 0100010F 0000A000"),
    (inv(3, 0x5000), "D"), (inv(3, 0x5000), "R9"),
    (inv(4, 0x5000, OTHER), "R10"), (inv(5, 0x7000), "D"),
    (drain(), "C1", ic("00000020")),
    (bring(0, "11223344", 8), "P", "", "11223344"),
    (drain(), "C0"), (bring(0, "55667788", 8), "R8"),
    (bring(0, "55667788"), "L", "", "55667788"),
    (drain(), "C1", ic("00000008")),
    (read(0x5FF8), "R13"), (read(0x6000), "T0", "00000801 0100000F 0000A000"),
    (fail(1, 1), "E"), (fail(1, 1), "R7"),
    (bring(0, "A1B2C3D4"), "L", "", "A1B2C3D4"),
)

# Groups closed by either code, and a failure.
PAGES = begin() + (
    (respond(3, 0), "R7"), (pages_on(2), "D"),
    (want_page(0x203000, 3, 1), "D", "30000000 01000004 00000000 00203019"),
    (respond(3, 0), "R7"),
    (want_page(0x204000, 3, 6), "D", "30000000 01000004 00000000 0020401E"),
    (want_page(0x205000, 4, 5), "R16"), (respond(3, 0, 0x0101), "R5"),
    (respond(3, 0), "D"),
    (want_page(0x205000, 4, 5), "D", "30000000 01000004 00000000 00205025"),
    (respond(4, 1), "D"), (respond(4, 1), "R7"),
    (want_page(0x205000, 31, 7), "D", "30000000 01000004 00000000 002050FF"),
    (respond(511, 15), "D"), (want_page(0x205000, 0, 1), "R15"),
    # Kinds that it does not receive.
    (raw("00000402 010005FF 00203000"), "R2"),
    (raw("00000801 0100050F 00203000"), "R2"),
    (raw("40000801 0100000F 00203000 01020304"), "R2"),
    (raw("32000000 00080002 01000001 00000001"), "R2"),
    (raw("30000000 00080004 01000000 0020301D"), "R2"),
)


def marked(step, code, beside):
    """The step with this Attr, if it is a packet that is received."""
    data = step[0]
    if data[0] != CALLS["receive"][0]:
        return step
    packet = poke(data[1:], 1, BESIDE, beside)
    return (data[:1] + with_attr(packet, code),) + step[1:]


def poisoned(step, code):
    """Steps that refuse a packet with this Attr, before it is taken."""
    data = step[0]
    if data[0] != CALLS["receive"][0]:
        return ()
    packet = with_attr(data[1:], code)
    found = [(poke(packet, 2, 0xC0, 0x80), "R3"),
             (poke(packet, 2, 0xC0, 0x40), "R3"),
             (packet + bytes(4), "R1"), (poke(packet, 0, 0xFF, 0x01), "R2"),
             (poke(packet, 8, 0xFF, 0xEE), "R5")]    # for another Function
    if packet[0] == 0x32:
        found.append((poke(packet, 1, 0x70, 0x10), "R4"))
    if packet[0] == 0x4A:
        found.append((poke(packet, 6, 0xE0, 0x20), "R4"))
    if packet[0] == 0x0A:
        found.append((poke(packet, 6, 0xE0, 0x40), "R4"))
    if packet[0] == 0x72:
        found.append((packet[:16] + b"\xFF" * 8, "R4"))
    return tuple((data[:1] + wrong, answer) for wrong, answer in found)


def with_refusals(steps, code):
    """The steps; before one packet of each kind, what is refused."""
    seen = set()
    for step in steps:
        data = step[0]
        kind = data[1] if data[0] == CALLS["receive"][0] else None
        if step[1][0] != "R" and kind not in seen:
            seen.add(kind)
            yield from poisoned(step, code)
        yield marked(step, code, 0)


RUNS = (("translations", TRANSLATIONS), ("reads", READS), ("pages", PAGES))
SCRIPTS = tuple(
    ("Attr %d, %s%s" % (code, name, ", unnamed bits" if beside else ""),
     tuple(with_refusals(steps, code)) if not beside else
     tuple(marked(step, code, beside) for step in steps))
    for name, steps in RUNS for beside in (0, BESIDE) for code in range(8))
