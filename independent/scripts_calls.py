"""Fixed scripts of calls with the answers worked out by hand.

Each script is a title and its steps; a step is a record, the answer wanted
and, where one is sent or handed back, the packet or the payload in hex. Each
script but the first begins with a reset. The examples 3, 4, 5, 7, 8 and 9 of
document 01, its "errors that tempt", and cases of the same kind.
"""

import packets
from calls import record
from cases_reading import forbidden
from cases_sizes import coded
from function import SLOTS, TAGS
from rng import Rng

US, AGENT, OTHER = 0x0100, 0x0008, 0x0009
ROOM = 200
TOP = 1 << 64


# --- calls ----------------------------------------------------------------

def reset(stu=0, rcb=64, ident=US):
    """Reset."""
    return record("reset", ident, stu, rcb)


def ask(address, units=1, no_write=0, room=ROOM):
    """Ask."""
    return record("ask", room, address, units, no_write)


def read(address, words=1, payload="", room=ROOM):
    """Read."""
    return record("read", room, address, words, rest=bytes.fromhex(payload))


def write(address, payload, words=None, room=ROOM):
    """Write; as many DWORDs as the payload holds."""
    data = bytes.fromhex(payload)
    words = len(data) // 4 if words is None else words
    return record("write", room, address, words, rest=data)


def take(fields, payload=b""):
    """Receive a packet of these fields."""
    packet = packets.write(fields, payload, packets.LONGEST)
    if isinstance(packet, int):
        raise AssertionError("not a packet: %r" % (fields,))
    return record("receive", rest=packet)


def raw(text):
    """Receive a packet given in hex."""
    return record("receive", rest=bytes.fromhex(text))


def reply(tag, *words, count=None, lower=None, rcb=64, ident=US):
    """Receive translations; alone and ending at the RCB unless told."""
    data = b"".join(word.to_bytes(8, "big") for word in words)
    count = len(data) if count is None else count
    lower = -len(data) % rcb if lower is None else lower
    return take(packets.CplData(0, AGENT, len(data) // 4, count, ident, tag,
                                lower), data)


def bring(tag, text, count=None, lower=0):
    """Receive data of a read."""
    data = bytes.fromhex(text)
    count = len(data) if count is None else count
    return take(packets.CplData(0, AGENT, len(data) // 4, count, US, tag,
                                lower), data)


def fail(tag, status):
    """Receive a completion without data."""
    return take(packets.Cpl(0, AGENT, status, 4, US, tag, 0))


def inv(itag, body, sender=AGENT, device=US):
    """Receive an Invalidate Request."""
    return take(packets.Inv(0, sender, itag, device, body & ~0xFFF,
                            body >> 11 & 1))


def respond(index, code, device=US):
    """Receive a PRG Response."""
    return take(packets.Prs(0, AGENT, device, code, index))


def want_page(address, index, flags, room=ROOM):
    """Page request; flags L 4, W 2, R 1."""
    return record("page request", room, address, index, flags)


def pages_on(allocation):
    """Switch the page interface on."""
    return record("pages on", allocation)


def drain(room=ROOM):
    """Drain."""
    return record("drain", room)


ENABLE, DISABLE, PAGES_OFF = (
    record("enable"), record("disable"), record("pages off"))


def begin(stu=0, rcb=64):
    """Reset and enable."""
    return ((reset(stu, rcb), "D"), (ENABLE, "D"))


def cached(tag, address, *words, rcb=64):
    """Ask for units and have them all translated in one packet."""
    return ((ask(address, len(words)), "T%d" % tag),
            (reply(tag, *words, rcb=rcb), "F"))


def ic(vector):
    """The Invalidate Completion for a vector in hex."""
    return "32000000 01000002 00080001 " + vector


# --- examples -------------------------------------------------------------

NEW = ("a new Function", (
    (ask(0), "R6"), (read(0), "R6"), (write(0, "00000000"), "R6"),
    (drain(0), "C0"), (want_page(0, 0, 1), "R15"), (PAGES_OFF, "D"),
    (fail(0, 4), "R5"),
    (take(packets.Cpl(0, AGENT, 4, 4, 0, 0, 0)), "R7"),
    (respond(0, 0), "R5"), (respond(0, 0, 0), "R7"),
    (respond(0, 15, 0), "R7"),
    (DISABLE, "D"), (ENABLE, "D"), (ENABLE, "D"),
    (ask(0x203000, 9), "R12"),
    (ask(0x203FFF, 8, 1), "T0", "00000410 000000FF 00203001"),
    # STU 0: the unit is 4096 bytes, so that this is a size.
    (reply(0, 0x7003, count=64, lower=56, ident=0), "M"),
    (read(0x203FFC), "T1", "00000801 0000010F 00007FFC"),
))

EXAMPLE_3 = ("example 3: INV below the unit", begin(stu=1) + (
    (ask(0, 3), "T0", "00000406 010000FF 00000000"),
    (reply(0, 0x80803, 0x90803, 0xA0803), "F"),
    (read(0x2FFC), "T0", "00000801 0100000F 00090FFC"),
    (inv(7, 0x3000), "D"),
    (read(0x1FFC), "T1", "00000801 0100010F 00081FFC"),
    (read(0x2000), "R13"), (read(0x2FFC), "R13"),
    (read(0x3000), "R13"), (read(0x3FFC), "R13"),
    (read(0x4000), "T2", "00000801 0100020F 000A0000"),
    # The open read lies in 2000h to 3FFFh, though not at 3000h.
    (drain(), "C0"),
    (bring(0, "01020304"), "L", "", "01020304"),
    (drain(), "C1", ic("00000080")),
))

EXAMPLE_4 = ("example 4: a large page is cached by the unit", begin() + (
    (ask(0x203000), "T0", "00000402 010000FF 00203000"),
    (raw("4A000002 00080008 01000038 00000000 400FF803"), "F"),
    (read(0x203000), "T0", "00000801 0100000F 40003000"),
    (read(0x203FE0, 8), "T1", "00000808 010001FF 40003FE0"),
    (write(0x203010, "DEADBEEF"), "D",
     "40000801 0100000F 40003010 DEADBEEF"),
    (read(0x204000), "R13"), (read(0x202FFC), "R13"),
    (read(0x200000), "R13"), (write(0x204000, "DEADBEEF"), "R13"),
    (read(0x203FE4, 8), "R12"),
))

EXAMPLE_5 = ("example 5: INV against all of a TR's range", begin(stu=2) + (
    (ask(0x00000FFFFFFFC000, 2), "T0",
     "20000404 010000FF 00000FFF FFFFC000"),
    # One unit behind it and one before it: not stale.
    (ask(0x0000100000004000), "T1"), (ask(0x00000FFFFFFF8000), "T2"),
    (inv(31, 0x0000100000001800), "D"),
    (reply(0, 0x41803, 0x81803), "X"),
    (reply(1, 0x41803), "F"), (reply(2, 0x81803), "F"),
    (read(0x00000FFFFFFFC000), "R13"), (read(0x0000100000000000), "R13"),
    (read(0x0000100000005004), "T0", "00000801 0100000F 00041004"),
    (drain(), "C1", ic("80000000")),
))

EXAMPLE_7 = ("example 7: a page request", ((reset(), "D"),
    (pages_on(1), "D"),
    (want_page(0x203000, 3, 5), "D", "30000000 01000004 00000000 0020301D"),
    (want_page(0x203000, 4, 5), "R16"),
))

EXAMPLE_8 = ("example 8: the last unit", begin() + (
    (ask(TOP - 1), "T0", "20000402 010000FF FFFFFFFF FFFFF000"),
    (ask(TOP - 0x1000, 2), "R12"), (ask(TOP - 0x8000, 8), "T1"),
    (ask(TOP - 0x7001, 8), "T2"), (ask(TOP - 0x7000, 8), "R12"),
    (reply(0, TOP - 0x1000 | 3), "F"),
    (read(TOP - 4), "T0", "20000801 0100000F FFFFFFFF FFFFFFFC"),
    (read(TOP - 4, 2), "R12"),
    (inv(0, TOP - 0x1000), "D"), (read(TOP - 4), "R13"),
    (drain(), "C0"), (fail(0, 1), "E"), (drain(), "C1", ic("00000001")),
    # Second regions would begin at 2^64.
    (reply(1, *[0x7FFFFFFFFFFFF803] * 2), "R8"),
    (reply(1, 0x7FFFFFFFFFFFF803), "X"),
) + begin(stu=31) + (
    (ask(TOP - 1), "T0", "20000402 010000FF FFFFFFFF FFFFF000"),
    (ask(TOP - (1 << 43), 2), "R12"),
    (ask(TOP - (1 << 43) - 1, 2), "T1"),
))

EXAMPLE_9 = ("example 9: 33 asks, 9 units", begin() + (
    (ask(0, 9), "R12"), (ask(0, 0), "R12"), (ask(0, 257), "R12"),
    (ask(0, 8), "T0", "00000410 010000FF 00000000"),
) + tuple((ask(0x1000 * i), "T%d" % i) for i in range(1, TAGS)) + (
    (ask(0), "R11"), (ask(0, room=0), "R11"), (ask(0, 9), "R12"),
    (fail(13, 4), "A"), (fail(17, 4), "A"),
    (ask(0x5000), "T13", "00000402 01000DFF 00005000"),
    (ask(0x6000), "T17"), (ask(0x7000), "R11"),
) + begin(rcb=128) + (
    (ask(0, 17), "R12"),
    (ask(0, 16), "T0", "00000420 010000FF 00000000"),
))

# --- errors that tempt ----------------------------------------------------

WHOLE_PAGE = ("a large page is not cached whole", begin() + (
    (ask(0x5000, 3), "T0"),
    # 16 KiB regions at 4000h: units 5000h to 7000h of the one at 4000h.
    (reply(0, 0x21803), "F"),
    (read(0x4000), "R13"),
    (read(0x5000), "T0", "00000801 0100000F 00021000"),
    (read(0x6000), "T1", "00000801 0100010F 00022000"),
    (read(0x7000), "T2", "00000801 0100020F 00023000"),
    (read(0x8000), "R13"),
    (inv(0, 0x6000), "D"), (read(0x5000), "T3"), (read(0x6000), "R13"),
    (read(0x7000), "T4"),
    # Two regions over four units: 7000h | 8000h to A000h.
    (ask(0x7000, 4), "T5"), (reply(5, 0x31801, 0x45802), "F"),
    (read(0x7000), "T5", "00000801 0100050F 00033000"),
    (write(0x7000, "00000000"), "R14"),
    (write(0x8000, "00000000"), "D",
     "40000801 0100000F 00044000 00000000"),
    (read(0x9000), "R14"),
    (write(0xA000, "01020304"), "D",
     "40000801 0100000F 00046000 01020304"),
    (read(0xB000), "R13"),
))

HELD_ITAG = ("an ITag waits for the reads noted", begin() +
             cached(0, 0x5000, 0x9003, 0xA003) + (
    (read(0x5000, 2), "T0"), (read(0x5010), "T1"), (read(0x6000), "T2"),
    (inv(3, 0x5000), "D"), (inv(4, 0x4800), "D"), (inv(5, 0x70000), "D"),
    (drain(15), "R17"), (drain(16), "C1", ic("00000020")),
    (drain(), "C0"),
    (bring(0, "11111111", count=8), "P", "", "11111111"),
    (drain(), "C0"),
    (bring(0, "22222222"), "L", "", "22222222"), (drain(), "C0"),
    # Tag 0 is taken again by a read that is not waited for.
    (read(0x6FFC), "T0"),
    (inv(6, 0x6000), "D"), (drain(), "C0"),
    (fail(1, 4), "E"),
    (drain(0), "R17"), (drain(), "C2", ic("00000018")), (drain(), "C0"),
    (bring(0, "33333333"), "L", "", "33333333"), (drain(), "C0"),
    (bring(2, "44444444"), "L", "", "44444444"),
    (drain(), "C1", ic("00000040")), (drain(), "C0"),
))

LATER_UNIT = ("an INV of a later unit makes a TR stale", begin() + (
    (ask(0x5FFF, 3), "T0"), (ask(0x5000, 2), "T1"), (ask(0x8000), "T2"),
    (inv(0, 0x7000), "D"),
    (reply(0, 0x9003, 0xA003, 0xB003), "X"),
    (reply(1, 0x9003, 0xA003), "F"), (reply(2, 0xB003), "F"),
    (read(0x5000), "T0"), (read(0x7000), "R13"), (read(0x8000), "T1"),
))

NO_RIGHTS = ("R = W = 0 is not cached and deletes", begin() + (
    (ask(0x5000, 3), "T0"), (reply(0, 0x9003, 0xA000, 0xB003), "F"),
    (read(0x5000), "T0"), (read(0x6000), "R13"), (read(0x7000), "T1"),
    (ask(0x5000, 2), "T2"), (reply(2, 0x9404, 0xA401), "F"),
    (read(0x5000), "R13"), (read(0x6000), "T2"),
    (write(0x6000, "00000000"), "R14"), (read(0x7000), "T3"),
    # A large page without rights deletes every unit of the range.
    (ask(0x5000, 2), "T4"), (reply(4, 0x1800), "F"),
    (read(0x5000), "R13"), (read(0x6000), "R13"), (read(0x7000), "T4"),
))

# --- reads, ITags, agents -------------------------------------------------

ASKED_ADDRESS = ("reads are noted by the address asked", begin() +
                 cached(0, 0x5000, 0x9003) + cached(0, 0x9000, 0x5003) + (
    (read(0x5000), "T0", "00000801 0100000F 00009000"),
    (inv(1, 0x9000), "D"),
    (drain(), "C1", ic("00000002")),
    (inv(1, 0x5000), "D"), (drain(), "C0"), (inv(1, 0x5000), "R9"),
    (bring(0, "00000000"), "L", "", "00000000"),
    (drain(), "C1", ic("00000002")), (inv(1, 0x5000), "D"),
))

UNTRANSLATED = ("U: AT 00, never noted", begin() +
                cached(0, 0x5000, 0x9007) + (
    (read(0x5010), "T0", "00000001 0100000F 00005010"),
    (write(0x5014, "01020304"), "D", "40000001 0100000F 00005014 01020304"),
    (inv(1, 0x5000), "D"), (drain(), "C1", ic("00000002")),
    (read(0x5010), "R13"), (bring(0, "00000000"), "L", "", "00000000"),
) + cached(0, 0x100005000, 0x9006) + (
    (read(0x100005000), "R14"),
    (write(0x100005FFC, "01020304"), "D",
     "60000001 0100000F 00000001 00005FFC 01020304"),
    (DISABLE, "D"), (write(0x100005FFC, "01020304"), "R6"),
))

SNOOP = ("INV between ask and completion", begin() + (
    (ask(0x5000, 2), "T0"), (ask(0x6000), "T1"),
    (reply(0, 0x9003, count=16), "M"), (read(0x5000), "T2"),
    (inv(0, 0x6000), "D"),
    (ask(0x6000), "T3"),
    # The first packet's entry is another unit and stays.
    (read(0x5004), "T4"),
    (reply(0, 0xA803, lower=0), "R8"), (reply(0, 0xA003, lower=64), "R8"),
    (reply(0, 0xA003, lower=0), "X"), (reply(0, 0xA003, lower=0), "R7"),
    (reply(1, 0xA003), "X"), (read(0x6000), "R13"),
    (reply(3, 0xB003), "F"), (read(0x6000), "T0"),
    # A stale first of two stays open.
    (ask(0x5000, 2), "T1"), (inv(1, 0x7FFFFFFFFFFFF800), "D"),
    (reply(1, 0x9003, count=16), "X"), (read(0x5000), "R13"),
    (reply(1, 0xA003, 0xA003), "R8"), (reply(1, 0xA003, lower=0), "X"),
    (ask(0), "T1"),
))

AGENTS = ("10 before 9; a refused INV fixes no agent", begin() + (
    (inv(5, 0x5000, OTHER, US + 1), "R5"),
    (raw("72000002 00090501 01000000 00000000 FFFFFFFF FFFFF800"), "R4"),
    (raw("72008002 00090501 01000000 00000000 00000000 00005000"), "R3"),
    (inv(5, 0x5000), "D"),
    (inv(5, 0x5000), "R9"), (inv(5, 0x5000, OTHER), "R10"),
    (inv(6, 0x5000, OTHER), "R10"),
    (inv(6, 0x5000, OTHER, US + 1), "R5"),
    (drain(), "C1", ic("00000020")), (inv(5, 0x5000, OTHER), "R10"),
    (inv(5, 0x5000), "D"),
    (reset(), "D"), (drain(), "C0"), (inv(5, 0x5000, OTHER), "D"),
    (inv(5, 0x5000), "R10"),
    (drain(), "C1", "32000000 01000002 00090001 00000020"),
))

# --- completions ----------------------------------------------------------

SWITCHED_OFF = ("another status than 100 clears E", begin() +
                cached(0, 0x5000, 0x9003) + (
    (ask(0x6000), "T0"), (ask(0x7000, 2), "T1"), (ask(0x8000), "T2"),
    (read(0x5000), "T3"), (ask(0xA000), "T4"),
    (fail(0, 0), "R8"), (fail(3, 0), "R8"),
    (raw("0A000000 00084004 01000000"), "R4"),
    (fail(0, 4), "A"), (read(0x5000), "T0"), (fail(0, 4), "E"),
    (reply(1, 0xA003, count=16), "M"),
    (fail(2, 1), "O"), (fail(2, 1), "R7"),
    (read(0x5000), "R6"), (ask(0x6000), "R6"),
    (write(0x5000, "00000000"), "R6"),
    (fail(3, 1), "E"), (reply(4, 0xC003), "X"), (fail(1, 7), "O"),
    (ENABLE, "D"), (read(0x5000), "R13"), (read(0x7000), "R13"),
    (ask(0x6000), "T0"), (fail(0, 3), "O"), (DISABLE, "D"), (ENABLE, "D"),
    (ask(0x6000), "T0"), (DISABLE, "D"), (ENABLE, "D"), (ENABLE, "D"),
    (reply(0, 0xC003), "X"), (read(0x6000), "R13"),
))

STATUSES = ("every status", begin() + cached(0, 0x5000, 0x9003) + tuple(
    step for status in (1, 3, 4, 5, 6, 7) for step in (
        (read(0x5000), "T0"), (fail(0, status), "E"), (read(0x5000), "T0"),
        (ask(0x6000), "T1"), (fail(1, status), "A" if status == 4 else "O"),
        (ask(0x6000), "T1" if status == 4 else "R6"),
        (bring(0, "01020304"), "L", "", "01020304"), (ENABLE, "D"),
        (fail(1, 4), "A" if status == 4 else "R7"),
        *cached(0, 0x5000, 0x9003))))

E_CLEAR = ("completions and INV while E is clear", begin() +
           cached(0, 0x5000, 0x9003, 0xA003) + (
    *((ask(0x5000, 4), "T%d" % i) for i in range(7)),
    (read(0x5000, 2), "T7"), (read(0x6000), "T8"),
    (reply(6, 0xB003, count=24), "M"),
    (DISABLE, "D"), (DISABLE, "D"),
    (reply(0, 0xB803), "X"),
    (reply(1, 0xB003, 0xB803), "R8"), (reply(1, 0xB003, count=16), "X"),
    (reply(1, 0xB803, lower=0), "R8"), (reply(1, 0xB000, lower=0), "X"),
    (reply(2, 0xB003, lower=0), "X"), (reply(3, 0xB000), "X"),
    (fail(4, 0), "R8"), (fail(4, 4), "A"), (fail(5, 5), "O"),
    (reply(6, 0xC003, 0xC003, lower=0), "X"),
    (bring(7, "01020304", count=8), "P", "", "01020304"),
    (inv(2, 0x5000), "D"), (inv(3, 0x7000), "D"),
    (drain(), "C1", ic("00000008")),
    (bring(7, "05060708"), "L", "", "05060708"),
    (drain(), "C1", ic("00000004")), (fail(8, 1), "E"),
    (ENABLE, "D"), (read(0x6000), "R13"),
))

LAST_BYTE = ("a tag is freed at the last byte", begin() +
             cached(0, 0x5000, 0x9003) + (
    (read(0x5000, 3), "T0", "00000803 010000FF 00009000"),
    (bring(0, "00112233 44556677", count=8), "R8"),
    (bring(0, "00112233 44556677", count=16), "R8"),
    (bring(0, "00112233 44556677 8899AABB CCDDEEFF", count=12), "R8"),
    (bring(0, "00112233 44556677", count=12, lower=0x7F), "P", "",
     "0011223344556677"),
    (ask(0), "T1"), (bring(0, "00112233 44556677", count=4), "R8"),
    (bring(0, "8899AABB", count=12), "R8"),
    (bring(0, "8899AABB"), "L", "", "8899AABB"),
    (bring(0, "8899AABB"), "R7"), (ask(0), "T0"),
    (bring(32, "8899AABB"), "R7"), (bring(255, "8899AABB"), "R7"),
    (read(0x5FF0, 4), "T2"),
    (bring(2, "00112233", count=16), "P", "", "00112233"),
    (bring(2, "44556677", count=16), "R8"),
    (bring(2, "44556677", count=12), "P", "", "44556677"),
    (fail(2, 5), "E"), (bring(2, "8899AABB", count=8), "R7"), (ask(0), "T2"),
))

TWO_PACKETS = ("two packets", begin() + (
    (ask(0x5000, 4), "T0"),
    (reply(0, 0x9003, count=16, lower=48), "R8"),
    (reply(0, 0x9003, count=12), "R8"), (reply(0, 0x9003, count=40), "R8"),
    (reply(0, 0x9003, count=0), "R8"),
    (bring(0, "00" * 12, count=16, lower=52), "R8"),
    (bring(0, "00" * 12, lower=52), "R8"),
    (reply(0, 0x9003, 0xA803, count=24), "R8"),
    (reply(0, 0x9003, 0xA003, count=24, lower=112), "M"),
    (reply(0, 0x9003, 0xA003, count=24, lower=112), "R8"),
    (reply(0, 0xB003, count=16, lower=0), "R8"),
    (reply(0, 0xB003, 0xC003, count=8, lower=0), "R8"),
    (reply(0, 0xB003, 0xC003, lower=0), "R8"),
    (reply(0, 0xB003, lower=64), "R8"), (reply(0, 0xB003, lower=56), "R8"),
    (reply(0, 0xB003, lower=0), "F"),
    (read(0x7000), "T0"), (read(0x8000), "R13"),
    (ask(0x5000, 2), "T1"),
    # Off the RCB: 8 first, then discarded with entries unread.
    (reply(1, 0x9003, count=12, lower=0), "R8"),
    (reply(1, 0x9003, 0x9003, 0x9003, lower=0), "R8"),
    (reply(1, 0xFFFFFFFFFFFFFFFF, 0x803, lower=0), "X"),
    (read(0x5000), "T1", "00000801 0100010F 00009000"),
    (ask(0x5000, 2), "T2"), (reply(2, 0x9003, 0xA003, lower=112), "F"),
) + begin(rcb=128) + (
    (ask(0x5000, 16), "T0"),
    (reply(0, 0x9003, count=16, lower=56), "R8"),
    (reply(0, 0x9003, count=16, lower=120), "M"),
    (reply(0, 0xA003, lower=0), "F"), (read(0x6000), "T0"),
    (ask(0x5000, 16), "T1"),
    (reply(1, *[0xB003] * 16, lower=0), "F"),
    (read(0x14000), "T1"), (read(0x15000), "R13"),
    (ask(0x5000), "T2"), (reply(2, 0x9003, lower=56), "X"),
))

SIZES = ("sizes that fit and sizes that do not", begin(stu=1) + (
    (ask(0x5000, 2), "T0"),
    (reply(0, 0x9003), "R8"), (reply(0, 0xFFFFFFFFFFFFF803), "R8"),
    (reply(0, 0x8803, 0x9803), "R8"), (reply(0, 0x9803, 0x9803), "R8"),
    # 5000h is in the 16 KiB at 4000h, and so is all of the range.
    (reply(0, 0x9803, count=16), "M"), (reply(0, 0x9803, lower=0), "R8"),
    (read(0x7FFC), "T1", "00000801 0100010F 0000BFFC"),
    (read(0x4FFC, 2), "R12"), (write(0x4FFC, "0102030405060708"), "R12"),
    (fail(0, 4), "A"), (read(0x5000), "T0", "00000801 0100000F 00009000"),
    (ask(0x5000, 2), "T2"), (reply(2, 0x7FFFFFFFFFFFF807), "F"),
    (read(0x5000), "T2", "00000001 0100020F 00005000"),
    (ask(0x7000), "T3"), (reply(3, 0x7FFFFFFFFFFFF803), "F"),
    (read(0x7000), "T3", "00000801 0100030F 00007000"),
))

# One unit, and translations of every size that hold it.
AT, TO = 0x5A3C5A3C5A3C5000, 0xC36996C3693C9000


def of_size(log2):
    """Fill with this size, INV of the range beside it, INV of its own."""
    size = 1 << log2
    sent = (TO - TO % size + AT % size).to_bytes(8, "big").hex()
    write_at = (write(AT, "01020304"), "D",
                "60000801 0100000F" + sent + "01020304")
    if int(sent, 16) < 1 << 32:
        raise AssertionError("not the 64-bit form")
    beside = ()
    if log2 < 64:
        beside = ((inv(0, coded(AT - AT % size ^ size, log2)), "D"), write_at)
    return ((ask(AT), "T0"), (reply(0, coded(TO - TO % size, log2) | 3), "F"),
            write_at, *beside, (inv(1, coded(AT - AT % size, log2)), "D"),
            (write(AT, "01020304"), "R13"),
            (drain(), "C2" if beside else "C1"))


EVERY_SIZE = ("every size", begin() + tuple(
    step for log2 in range(12, 65) for step in of_size(log2)))

# --- the hand -------------------------------------------------------------

FULL = tuple(step for i in range(4) for step in
             cached(0, 0x8000 * i, *[0x1000000 * (i + 1) + 0x1000 * k + 3
                                     for k in range(8)]))

HAND = ("the hand steps when used and only then", begin() + FULL + (
    # Unit i stands in slot i. The same units again: no slot is needed.
    *cached(0, 0x3000, 0x9003),
    (inv(0, 0x14000), "D"),
    *cached(0, 0x100000, 0x9003),               # slot 14h, free
    # Refused: the second region's size is another.
    (ask(0x200000, 2), "T0"), (reply(0, 0xA003, 0xB803), "R8"),
    (write(0x200000, "01020304"), "R13"),
    (read(0), "T1"), (fail(1, 4), "E"),
    # Off the RCB, and stale: nothing is filled.
    (reply(0, 0xA003, 0xB003, lower=0), "X"),
    (ask(0x200000), "T0"), (inv(1, 0x200000), "D"), (reply(0, 0xA003), "X"),
    (read(0), "T0"), (fail(0, 4), "E"),
    *cached(0, 0x200000, 0xA003),               # slot 0
    (read(0), "R13"), (read(0x1000), "T0"), (fail(0, 4), "E"),
    *cached(0, 0x201000, 0xA003, 0xA003),       # slots 1 and 2
    (read(0x1000), "R13"), (read(0x2000), "R13"), (read(0x3000), "T0"),
    (fail(0, 4), "E"), (DISABLE, "D"), (ENABLE, "D"),
    (read(0x3000), "R13"),
) + FULL + (
    # Enabling has kept the hand at 3.
    *cached(0, 0x300000, 0xA003), (read(0x3000), "R13"),
    (read(0x2000), "T0"), (fail(0, 4), "E"),
    # A delete makes a slot for the next fill of the same packet.
    (ask(0x1F000, 2), "T0"), (reply(0, 0xC000, 0xD003), "F"),
    (read(0x1F000), "R13"), (read(0x4000), "T0"), (read(0x20000), "T1"),
    (read(0x0000), "T2"),
) + begin() + FULL + tuple(
    step for i in range(SLOTS + 2)
    for step in cached(0, 0x400000 + 0x1000 * i, 0xA003)) + (
    # Once round and two more.
    (read(0x400000), "R13"), (read(0x401000), "R13"), (read(0x402000), "T0"),
))

OWN_RANGE = ("a fill that pushes out the next of its range", begin() + (
    *(step for i in range(4) for step in
      cached(0, 0x100000 + 0x8000 * i, *[0x9003] * 8)),
    # FF000h takes slot 0 from 100000h, which then takes slot 1.
    (ask(0xFF000, 2), "T0"), (reply(0, 0xB003, 0xC003), "F"),
    (read(0xFF000), "T0", "00000801 0100000F 0000B000"),
    (read(0x100000), "T1", "00000801 0100010F 0000C000"),
    (read(0x101000), "R13"), (read(0x102000), "T2"),
    # FE000h takes slot 2 from 102000h; FF000h stays in slot 0.
    (ask(0xFE000, 2), "T3"), (reply(3, 0xD003, 0xE003), "F"),
    (read(0xFF000), "T3", "00000801 0100030F 0000E000"),
    (read(0x102000), "R13"), (read(0x103000), "T4"),
))

ALL_ITAGS = ("32 ITags in one packet", begin() + cached(0, 0x5000, 0x9003) +
             ((read(0x5000), "T0"),) + tuple(
                 (inv(i, 0x5000 if i == 9 else 0x7000), "D")
                 for i in range(32)) + (
    (inv(0, 0x5000), "R9"), (inv(31, 0x5000), "R9"),
    (drain(), "C31", ic("FFFFFDFF")), (fail(0, 4), "E"),
) + tuple((inv(i, 0x5000), "R9" if i == 9 else "D") for i in range(32)) + (
    (drain(16), "C32", ic("FFFFFFFF")), (drain(), "C0"),
))

ALL_READS = ("32 reads for one ITag", begin() + cached(0, 0x5000, 0x9003) +
             tuple((read(0x5000 + 4 * i), "T%d" % i) for i in range(TAGS)) + (
    (read(0x5000), "R11"), (ask(0x5000), "R11"), (inv(8, 0x5000), "D"),
) + tuple((bring(TAGS - 1 - i, "0000A5A5"), "L", "", "0000A5A5")
          for i in range(TAGS - 1)) + (
    (drain(), "C0"), (ask(0x5000), "T1"), (bring(0, "01020304", 8), "R8"),
    (drain(), "C0"), (fail(0, 7), "E"), (drain(), "C1", ic("00000100")),
))

# --- pages ----------------------------------------------------------------

PAGES = ("credits and groups", ((reset(), "D"),
    (pages_on(0), "R12"), (pages_on(513), "R12"), (PAGES_OFF, "D"),
    (pages_on(0xFFFF), "R12"), (want_page(0x1000, 32, 0), "R15"),
    (pages_on(3), "D"), (pages_on(3), "R12"), (pages_on(0), "R12"),
    (want_page(0x1000, 31, 1), "D", "30000000 01000004 00000000 000010F9"),
    (respond(31, 0), "R7"),
    (want_page(0x2000, 31, 6, room=15), "R17"),
    (want_page(0x2000, 31, 6, room=16), "D",
     "30000000 01000004 00000000 000020FE"),
    (want_page(0x3000, 31, 1), "R16"), (want_page(0x3000, 31, 4), "R12"),
    (want_page(0x3000, 32, 1), "R12"), (want_page(0x3008, 1, 1), "R12"),
    (want_page(0x3000, 257, 1), "R12"), (want_page(0x3000, 1, 1, 0), "R17"),
    (want_page(TOP - 0x1000, 0, 5), "D",
     "30000000 01000004 FFFFFFFF FFFFF005"),
    (want_page(0x3000, 1, 1), "R16"), (want_page(0x3000, 1, 1, 0), "R16"),
    (respond(32, 0), "R7"), (respond(511, 1), "R7"), (respond(1, 0), "R7"),
    (respond(31, 0, US + 1), "R5"), (respond(31, 0), "D"),
    (respond(31, 0), "R7"),
    (want_page(0x3000, 31, 1), "D"), (want_page(0x3000, 1, 5), "D"),
    (want_page(0x3000, 2, 1), "R16"), (respond(0, 1), "D"),
    (want_page(0x3000, 2, 7), "D"),
    (PAGES_OFF, "D"), (want_page(0x3000, 3, 1), "R15"),
    (respond(2, 0), "R7"), (respond(2, 15), "R7"), (PAGES_OFF, "D"),
    (pages_on(512), "D"),
) + tuple((want_page(0x1000 * i, 31 * (i % 2), 3), "D")
          for i in range(510)) + (
    (want_page(0x4000, 31, 5), "D"), (want_page(0x4000, 0, 5), "D"),
    (want_page(0x4000, 2, 5), "R16"),
    # Two groups of 256 requests each: all their credits come back.
    (respond(31, 1), "D"), (want_page(0x4000, 2, 5), "D"),
    (respond(0, 0), "D"), (want_page(0x4000, 1, 5), "D"),
    (respond(511, 2), "D"), (want_page(0x4000, 2, 5), "R15"),
    (respond(2, 0), "R7"), (respond(2, 2), "R7"), (pages_on(1), "R15"),
    (pages_on(0), "R15"), (PAGES_OFF, "D"), (pages_on(1), "R15"),
    (reset(32), "R12"), (reset(0, 65), "R12"), (pages_on(1), "R15"),
    (reset(), "D"), (pages_on(1), "D"),
    (want_page(0x4000, 2, 5), "D"), (PAGES_OFF, "D"), (pages_on(1), "D"),
    (want_page(0x5000, 2, 5), "D"), (respond(2, 1), "D"),
    (want_page(0x5000, 2, 5), "D"), (respond(2, 9), "D"),
    (respond(2, 0), "R7"), (want_page(0x5000, 2, 0), "R15"),
))

# --- order of refusals ----------------------------------------------------

ORDER = ("which refusal comes first", begin() + (
    (DISABLE, "D"), (ask(0, 9, room=0), "R6"), (read(1, 33, room=0), "R6"),
    (write(1, "00", 33, 0), "R6"), (ENABLE, "D"),
    *cached(0, 0x5000, 0x9001), *cached(0, 0x6000, 0x9002),
    (read(0x5001, room=0), "R12"), (read(0x5000, 0), "R12"),
    (read(0x5000, 33), "R12"), (read(0x5FFC, 2), "R12"),
    (read(0x5000, 1, "00000000"), "R12"), (read(0x7002), "R12"),
    (write(0x5000, "", 1, 0), "R12"),
    (write(0x5000, "0000000000", 1), "R12"),
    (write(0x5000, "", 0), "R12"), (write(0x7000, "000000", 1), "R12"),
    (write(0x6000, "00" * 132), "R12"), (write(0x6000, "00", 257), "R12"),
    (write(0x6F84, "00" * 128), "R12"),
    (write(0x6F80, "00" * 128, room=139), "R17"),
    (write(0x6F80, "00" * 128, room=140), "D",
     "40000820 010000FF 00009F80" + "00" * 128),
    (read(0x7000, room=0), "R13"), (write(0x7000, "00000000", room=0), "R13"),
    (read(0x6000, room=0), "R14"), (write(0x5000, "00000000", room=0), "R14"),
    (read(0x5000, room=11), "R17"), (read(0x5000, room=12), "T0"),
    (write(0x6000, "000000A5", room=15), "R17"),
    (write(0x6000, "000000A5", room=16), "D",
     "40000801 0100000F 00009000 000000A5"),
) + tuple((ask(0x1000 * i), "T%d" % i) for i in range(1, TAGS)) + (
    (read(0x5000, room=0), "R11"), (read(0x6000, room=0), "R14"),
    (read(0x7000, room=0), "R13"), (read(0x5000, 33), "R12"),
    (write(0x6000, "01020304"), "D", "40000801 0100000F 00009000 01020304"),
    (raw(""), "R1"), (raw("00" * 11), "R1"), (raw("FF" * 145), "R1"),
    (raw("FF" * 12), "R2"), (raw("32" + "00" * 15), "R2"),
    (raw("00000402 010000FF 00203000"), "R2"),
    (raw("00000801 0100000F 40003000"), "R2"),
    (raw("40000801 0100000F 40003000 00000000"), "R2"),
    (raw("32000000 00080002 01000001 00000001"), "R2"),
    (raw("30000000 01000004 00000000 0020301D"), "R2"),
    (raw("00000C01 0100000F 40003000"), "R4"),
    (raw("0A000000 00080004 010000"), "R1"),
    (raw("0A000000 00080004 01000000 00"), "R1"),
    (raw("0A004000 00084004 01010000"), "R3"),
    (raw("0A000000 00084004 01010000"), "R4"),
    (raw("0A000000 00080004 01012000"), "R5"),
    (raw("0A000000 00080004 01002000"), "R7"),
    (raw("0A000000 00080004 01000000"), "R8"),
    (raw("32100000 00080005 01000003 00000000"), "R4"),
    (raw("32000000 00080005 01010003 00000000"), "R5"),
    (raw("32000000 00080005 01000003 00000000"), "R7"),
))


# --- packets that cannot be read ------------------------------------------

def broken(text):
    """Numbers 1, 3 and 5 for a packet that is whole, given in hex."""
    data = bytes.fromhex(text)

    def changed(at, bits):
        return data[:at] + bytes([data[at] ^ bits]) + data[at + 1:]

    return tuple((record("receive", rest=packet), answer)
                 for packet, answer in (
        (data[:-1], "R1"), (data[:11], "R1"), (data + b"\0", "R1"),
        (data + bytes(4), "R1"), (data + bytes(145 - len(data)), "R1"),
        (data + bytes(255 - len(data)), "R1"),
        (changed(2, 0x80), "R3"), (changed(2, 0x40), "R3"),
        (changed(2, 0xC0), "R3"), (changed(2, 0x80) + bytes(4), "R1"),
        (changed(0, 0x01), "R2"), (changed(0, 0x80), "R2"),
        (changed(8, 0x01), "R5"), (changed(9, 0x80), "R5")))


def broken_completions(tag):
    """Completions for a tag, none of which can be taken."""
    end = "0100%02X00" % tag
    return (broken("0A000000 00082004" + end)
            + broken("4A000001 00080004" + end + "01020304") + (
        (raw("0A000000 00084004" + end), "R4"),
        (raw("4A000001 00082004" + end + "01020304"), "R4"),
        (raw("4A000001 00084004" + end + "01020304"), "R4"),
        (raw("4A000001 00088004" + end + "01020304"), "R4"),
        (raw("4A000021 00080084" + end + "00" * 132), "R4"),
        (raw("4A000020 00080084" + end + "00" * 132), "R1"),
        (raw("4A000000 00080004" + end), "R1"),
        (raw("4A000002 00080004" + end + "01020304"), "R1")))


BROKEN = ("packets that cannot be read", begin() +
          cached(0, 0x5000, 0x9003) + (
    (ask(0x5000), "T0"), (read(0x5000), "T1"), (pages_on(1), "D"),
    (want_page(0x1000, 3, 5), "D"),
    *broken_completions(0), *broken_completions(1), *broken_completions(2),
    *broken("72000002 00080501 01000000 00000000 00000000 00005000"),
    (raw("72000002 00080500 01000000 00000000 00000000 00005000"), "R2"),
    (raw("72000002 00080502 01000000 00000000 00000000 00005000"), "R2"),
    (raw("72000001 00080501 01000000 00000000 00000000"), "R4"),
    (raw("72000003 00080501 01000000 00000000" + "00" * 12), "R4"),
    (raw("72000000 00080501 01000000 00000000"), "R1"),
    (raw("72000002 00080501 01000000 00000000 FFFFFFFF FFFFFFFF"), "R4"),
    *broken("32000000 00080005 01000003 00000000"),
    (raw("32000000 00080001 01000003 00000000"), "R2"),
    (raw("30000000 00080005 01000003 00000000"), "R2"),
    (raw("32100000 00080005 01000003 00000000"), "R4"),
    (raw("32700000 00080005 0100F003 00000000"), "R4"),
    (raw("00008402 010000FF 00203000"), "R3"),
    (raw("60004801 0100000F 00000001 00003000 00000000"), "R3"),
    (raw("3200C000 00080002 01000001 00000001"), "R3"),
    (raw("30008000 01000004 00000000 0020301D"), "R3"),
    *((record("receive", rest=packet), "R4")
      for form in ("TR32", "TR64", "RD32", "RD64", "WR32", "WR64", "PRQ")
      for packet in forbidden(Rng(6), form)[::4]),
    # What was open is open still.
    (raw("32000000 00080005 01000003 00000000"), "D"),
    (fail(1, 1), "E"), (reply(0, 0xA003), "F"), (inv(5, 0x5000), "D"),
))

SCRIPTS = (NEW, EXAMPLE_3, EXAMPLE_4, EXAMPLE_5, EXAMPLE_7, EXAMPLE_8,
           EXAMPLE_9, WHOLE_PAGE, HELD_ITAG, LATER_UNIT, NO_RIGHTS,
           ASKED_ADDRESS, UNTRANSLATED, SNOOP, AGENTS, SWITCHED_OFF,
           STATUSES, E_CLEAR, LAST_BYTE, TWO_PACKETS, SIZES, EVERY_SIZE,
           HAND, OWN_RANGE, ALL_ITAGS, ALL_READS, PAGES, ORDER, BROKEN)


def check(script, title, step):
    """The answer line to one step; fails if it is not the one wanted."""
    data, answer, sent, payload = step + ("", "")[:4 - len(step)]
    text = script.run(data)
    got = text.split("\t")
    room = bytes.fromhex(sent)
    # Trailing bytes A5h of the buffer are not shown.
    shown = room.rstrip(b"\xA5").hex().upper()
    wrong = got[0] != answer
    if got[0][0] in "RXMFAOPLE":
        wrong |= got[1] != "0"
    if sent:
        wrong |= got[1] != str(len(room)) or got[2] != shown
    wrong |= got[3] != payload.replace(" ", "").upper()
    if wrong:
        raise AssertionError("%s: wanted %r, got %r for %s"
                             % (title, step[1:], got[:4], data.hex()))
    return text
