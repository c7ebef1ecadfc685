"""What a script of calls reached: numbers, answers and situations.

REACHABLE says which cells of the table of calls and answers can occur at all.
The situations are what the states and packets around a call look like; they
are told from the state before and after it, apart from the player that drew
the call. Every situation listed here must come up at least once.
"""

import packets
from calls import parse
from function import (END, OFF, ON, PAGE, STOPPED, TAGS, OpenRead, OpenTr,
                      overlap)

# Written from "The seventeen numbers" of document 01 and the order of
# refusals below them, and from "What unrefused calls answer". A row is a call;
# received packets are parted by their bytes: a completion (byte 0 0Ah or 4Ah)
# by what its tag (byte 10) is open for, INV by 72h with code 01h, PRS by 32h
# with code 05h. All else, and what is too short to tell, is "other": there 2
# comes from byte 0, from the code and from the kind, and nothing is taken.
# Reading gives 1, 3 and 4 in every row (an INV, a PRS and both CPL have
# forbidden values), 2 only in "other". An open tag is never 7, and a tag that
# is not open never gets as far as 8.
REACHABLE = {
    "reset": "12 D",
    "enable": "D",
    "disable": "D",
    "ask": "6 12 11 17 T",
    "read": "6 12 13 14 11 17 T",
    "write": "6 12 13 14 17 D",
    "CPL for TR": "1 3 4 5 8 X M F A O",
    "CPL for read": "1 3 4 5 8 P L E",
    "CPL, no tag": "1 3 4 5 7",
    "INV": "1 3 4 5 10 9 D",
    "PRS": "1 3 4 5 7 D",
    "other": "1 2 3 4",
    "drain": "17 C0 C",
    "pages on": "15 12 D",
    "pages off": "D",
    "page request": "15 12 16 17 D",
}
NUMBERS = tuple(str(n) for n in range(1, 18))
ANSWERS = ("T", "D", "C0", "C", "X", "M", "F", "A", "O", "P", "L", "E")


def row_of(function, name, rest):
    """The row of a call, for the state before it."""
    if name != "receive":
        return name
    if len(rest) >= packets.SHORTEST:
        if rest[0] in (0x0A, 0x4A):
            request = function.tags[rest[10]] if rest[10] < TAGS else None
            if isinstance(request, OpenTr):
                return "CPL for TR"
            if isinstance(request, OpenRead):
                return "CPL for read"
            return "CPL, no tag"
        if (rest[0], rest[7]) == (0x72, 0x01):
            return "INV"
        if (rest[0], rest[7]) == (0x32, 0x05):
            return "PRS"
    return "other"


def cell_of(answer):
    """The column of an answer."""
    if answer[0] == "R":
        return answer[1:]
    if answer == "C0":
        return "C0"
    return answer[0]


class Seen:
    """A call with the states around it."""

    def __init__(self, before, after, data, answer):
        self.before, self.after = before, after
        self.name, self.f, self.rest = parse(data)
        self.answer = answer
        self.room = self.f.get("room", 0)
        self.row = row_of(before, self.name, self.rest)
        self.packet = packets.read(self.rest) if self.rest else 1
        self.read = not isinstance(self.packet, int)
        self.request = None
        if self.row in ("CPL for TR", "CPL for read"):
            self.request = before.tags[self.rest[10]]

    def is_(self, *answers):
        """Was it one of these answers (columns; numbers with R)?"""
        column = cell_of(self.answer)
        return (self.answer if self.answer[0] == "R" else column) in answers


def reads(function):
    """The open reads."""
    return [r for r in function.tags if isinstance(r, OpenRead)]


def trs(function):
    """The open TRs."""
    return [r for r in function.tags if isinstance(r, OpenTr)]


# --- calls without packets ------------------------------------------------

def of_reset(c):
    """Situations of a reset."""
    b, r12, d = c.before, c.is_("R12"), c.is_("D")
    full = any(b.tags) and any(b.slots) and b.enabled
    yield "refused for STU", r12 and c.f["stu"] > 31
    yield "refused for STU 32", r12 and c.f["stu"] == 32
    yield "refused for RCB", r12 and c.f["stu"] <= 31
    yield "refused in the middle", r12 and full
    yield "accepted in the middle", d and full
    yield "accepted with ITags waiting", d and bool(b.waiting)
    yield "accepted while pages on", d and b.pages == ON
    yield "accepted while pages stopped", d and b.pages == STOPPED
    yield "hand back to 0", d and b.hand > 0
    yield "STU 31", d and c.f["stu"] == 31


def of_enable(c):
    """Situations of enable."""
    b, a = c.before, c.after
    fresh = not b.enabled
    yield "E was set, entries stay", b.enabled and any(a.slots)
    yield "E was set, a TR stays good", b.enabled and any(
        not t.stale for t in trs(a))
    yield "empties the ATC", fresh and any(b.slots)
    yield "keeps the hand", fresh and a.hand > 0
    yield "makes a TR stale", fresh and any(not t.stale for t in trs(b))
    yield "stale between two packets", fresh and any(
        t.due and not t.stale for t in trs(b))
    yield "leaves reads and ITags", fresh and any(r.itags for r in reads(a))


def of_disable(c):
    """Situations of disable."""
    yield "E was clear", not c.before.enabled
    yield "entries stay", c.before.enabled and any(c.after.slots)


def of_pages_on(c):
    """Situations of switching on."""
    b, n = c.before, c.f["allocation"]
    for allocation in (1, 2, 512):
        yield "on with %d" % allocation, c.is_("D") and n == allocation
    for allocation in (0, 513, 65535):
        yield "12 for %d" % allocation, (
            c.is_("R12") and n == allocation and b.pages == OFF)
    yield "12 for being on", c.is_("R12") and b.pages == ON and 1 <= n <= 512
    yield "15 and 12", c.is_("R15") and not 1 <= n <= 512
    yield "15 alone", c.is_("R15") and 1 <= n <= 512


def of_pages_off(c):
    """Situations of switching off."""
    b = c.before
    yield "when off", b.pages == OFF
    yield "when stopped", b.pages == STOPPED
    yield "closes groups", b.pages == ON and any(g.waits for g in b.groups)


# --- calls that send ------------------------------------------------------

def rooms(c, due, sent):
    """Situations of the output buffer."""
    yield "room exact", sent and c.room == due
    yield "room larger", sent and c.room > due
    yield "one byte short", c.is_("R17") and c.room == due - 1
    yield "room 0", c.is_("R17") and c.room == 0


def of_ask(c):
    """Situations of an ask."""
    b, n, address = c.before, c.f["units"], c.f["address"]
    sent, r12, most = c.is_("T"), c.is_("R12"), b.rcb // 8
    unit, size = b.unit_of(address), b.unit_size()
    yield from rooms(c, 12 if address < 1 << 32 else 16, sent)
    for rcb in (64, 128):
        yield "all that RCB %d allows" % rcb, (
            sent and b.rcb == rcb and n == most)
        yield "one more than RCB %d allows" % rcb, (
            r12 and b.rcb == rcb and n == most + 1)
    yield "below 4 GiB", sent and address < 1 << 32
    yield "from 4 GiB up", sent and address >= 1 << 32
    yield "across 4 GiB", (sent and address < 1 << 32
                           and unit + n * size > 1 << 32)
    yield "range ends at 2^64", sent and unit + n * size == END
    yield "N = 1 at the last unit", sent and n == 1 and unit + size == END
    yield "range passes 2^64", r12 and 1 <= n <= most
    yield "passes by one unit", (r12 and n <= most
                                 and unit + n * size == END + size)
    yield "N = 0", r12 and n == 0
    yield "N good in its low byte", r12 and n > 255 and 1 <= n % 256 <= most
    yield "No Write", sent and c.f["no_write"] == 1
    yield "bits 11:0 set", sent and address % PAGE > 0
    yield "not the unit's first page", sent and address - unit >= PAGE
    yield "unit is cached", sent and b.slot_of(unit) is not None
    yield "unit is asked already", sent and any(
        unit in b.units_of(t) for t in trs(b))
    yield "a tag below open ones", sent and any(b.tags[int(c.answer[1:]):])
    yield "tag 31", c.answer == "T31"
    yield "tag taken while an ITag waits", sent and any(
        r.itags for r in reads(b))
    yield "6 and 12", c.is_("R6") and not 1 <= n <= most
    yield "12 and 11", r12 and None not in b.tags
    yield "11 and 17", c.is_("R11") and c.room < 12


def of_access(c, writes):
    """Situations of a read or a write."""
    b, n, address = c.before, c.f["words"], c.f["address"]
    sent, r12 = c.is_("D" if writes else "T"), c.is_("R12")
    slot = b.slot_of(b.unit_of(address))
    entry = None if slot is None else b.slots[slot]
    u = entry is not None and entry.u == 1
    at = address
    if entry and not u:
        at = entry.translated + address - entry.unit
    due = (12 if at < 1 << 32 else 16) + (4 * n if writes else 0)
    yield from rooms(c, due, sent)
    low, low_at = address < 1 << 32, at < 1 << 32
    yield "AT 10, 32-bit form", sent and not u and low_at
    yield "AT 10, 64-bit form", sent and not u and not low_at
    yield "AT 00, 32-bit form", sent and u and low
    yield "AT 00, 64-bit form", sent and u and not low
    yield "from below 4 GiB to above", sent and low and not low_at
    yield "from above 4 GiB to below", sent and not low and low_at
    yield "n = 1", sent and n == 1
    yield "n = 32", sent and n == 32
    yield "ends with its page", sent and address % PAGE + 4 * n == PAGE
    yield "not the unit's first page", sent and address % b.unit_size() >= PAGE
    right = 4 * n if writes else 0
    plain = len(c.rest) == right
    fits = address % 4 == 0 and address % PAGE + 4 * n <= PAGE
    yield "n = 0", r12 and n == 0 and plain
    yield "n = 33", r12 and n == 33
    yield "n good in its low byte", r12 and n > 255 and 1 <= n % 256 <= 32
    crosses = (r12 and 1 <= n <= 32 and address % 4 == 0 and plain
               and address % PAGE + 4 * n > PAGE)
    yield "not a multiple of 4", (r12 and address % 4 > 0 and plain
                                  and 1 <= n <= 32)
    yield "crosses a page", crosses
    yield "crosses a page by 4 bytes", (
        crosses and address % PAGE + 4 * n == PAGE + 4)
    yield "crosses a page in its unit", crosses and (
        b.unit_of(address) == b.unit_of(min(address + 4 * n, END - 1)))
    yield "payload of another length", (
        r12 and not plain and fits and 1 <= n <= 32)
    yield "6 though cached", c.is_("R6") and entry is not None
    yield "6 though U", c.is_("R6") and u
    yield "12 and 13", r12 and entry is None
    yield "13 with others cached", c.is_("R13") and any(b.slots)
    yield "13 with 32 cached", c.is_("R13") and all(b.slots)
    yield "14", c.is_("R14") and not u
    yield "14 under U", c.is_("R14") and u
    yield "14 and 17", c.is_("R14") and c.room < 12
    yield "13 and 17", c.is_("R13") and c.room < 12
    full = None not in b.tags
    if writes:
        yield "all tags open", sent and full
        yield "ends in A5h", sent and c.rest[-1:] == b"\xA5"
    else:
        yield "11 and 17", c.is_("R11") and c.room < 12
        yield "13 before 11", c.is_("R13") and full
        yield "14 before 11", c.is_("R14") and full
        yield "tag 31", c.answer == "T31"
        yield "tag taken while an ITag waits", sent and any(
            r.itags for r in reads(b))


def of_read(c):
    """Situations of a read."""
    return of_access(c, False)


def of_write(c):
    """Situations of a write."""
    return of_access(c, True)


def of_drain(c):
    """Situations of a drain."""
    b = c.before
    ready, held = b.ready(), any(r.itags for r in reads(b))
    yield "nothing waits", c.is_("C0") and not b.waiting
    yield "nothing waits, room 0", (c.is_("C0") and not b.waiting
                                    and c.room == 0)
    yield "all held by reads", c.is_("C0") and bool(b.waiting)
    yield "one", c.answer == "C1"
    yield "three or more", c.is_("C") and len(ready) >= 3
    yield "some held, some ready", c.is_("C") and held
    yield "E clear", c.is_("C") and not b.enabled
    yield "ITag 0", c.is_("C") and 0 in ready
    yield "ITag 31", c.is_("C") and 31 in ready
    yield "17 with some held", c.is_("R17") and held
    yield from rooms(c, 16, c.is_("C"))


def of_page_request(c):
    """Situations of a page request."""
    b, f, sent = c.before, c.f, c.is_("D")
    group = b.groups[f["index"]] if f["index"] < TAGS else None
    r12, r16 = c.is_("R12"), c.is_("R16")
    yield from rooms(c, 16, sent)
    for flags in (1, 2, 3, 5, 6, 7):
        yield "flags %d" % flags, sent and f["flags"] == flags
    yield "another of its group", sent and group.sent > 0
    yield "closes a group of several", (sent and group.sent > 0
                                        and f["flags"] > 3)
    yield "the last credit", sent and c.after.credits == 0
    yield "index 31", sent and f["index"] == 31
    yield "above 4 GiB", sent and f["address"] >= 1 << 32
    yield "E clear", sent and not b.enabled
    yield "E set", sent and b.enabled
    yield "R = W = 0", r12 and f["flags"] in (0, 4)
    yield "not a page", r12 and f["address"] % PAGE > 0
    yield "index 32", r12 and f["index"] == 32
    yield "index good in its low byte", r12 and 256 <= f["index"] < 256 + 32
    yield "16 for waiting", r16 and group.waits and b.credits > 0
    yield "16 for no credit", r16 and not group.waits and b.credits == 0
    yield "16 for both", r16 and group.waits and b.credits == 0
    yield "12 and 16", r12 and b.credits == 0
    yield "16 and 17", r16 and c.room < 16
    yield "15 when off", c.is_("R15") and b.pages == OFF
    yield "15 when stopped", c.is_("R15") and b.pages == STOPPED
    yield "15 and 12", c.is_("R15") and f["flags"] in (0, 4)


# --- received packets -----------------------------------------------------

def of_reading(c):
    """Situations of a packet that cannot be read, in every row."""
    n, first = len(c.rest), c.rest[:1]
    due = packets.HEADER.get(c.rest[0], 0) if c.rest else 0
    if first and first[0] in packets.CARRIES and n >= packets.SHORTEST:
        due += 4 * (int.from_bytes(c.rest[2:4], "big") & 0x3FF)
    r1 = c.is_("R1") and n >= packets.SHORTEST
    yield "1: cut", r1 and n < due
    yield "1: lengthened", r1 and due < n <= packets.LONGEST
    yield "1: over 144 bytes", r1 and n > packets.LONGEST
    yield "1: 145 bytes", r1 and n == packets.LONGEST + 1
    yield "3: TD", c.is_("R3") and c.rest[2] & 0xC0 == 0x80
    yield "3: EP", c.is_("R3") and c.rest[2] & 0xC0 == 0x40


def of_forbidden(c):
    """Situations of the forbidden values of a completion."""
    r4 = c.is_("R4")
    data, status = c.rest[0] == 0x4A, c.rest[6] >> 5
    yield "4: status 010", r4 and not data and status == 2
    yield "4: status with data", r4 and data and status > 0
    yield "4: Length 33", r4 and data and status == 0


# --- completions ----------------------------------------------------------

def words_of(payload):
    """The translations of a payload."""
    return [int.from_bytes(payload[at:at + 8], "big")
            for at in range(0, len(payload) - 7, 8)]


def misfits(function, request, packet, payload):
    """All reasons for which translations do not fit their TR."""
    out = []
    n, count = len(payload), packet.byte_count
    if n % 8:
        out.append("payload")
    if request.due:
        if count != request.due:
            out.append("Byte Count")
        if n != request.due:
            out.append("Length")
        if packet.lower:
            out.append("Lower Address")
    else:
        if count % 8:
            out.append("Byte Count not of 8")
        if count < n:
            out.append("Byte Count too small")
        if count > 8 * request.units:
            out.append("Byte Count too large")
        if count == n and (n + packet.lower) % function.rcb:
            return out          # entries unread
        if count > n and (n + packet.lower) % function.rcb:
            out.append("off the RCB")
    sizes = [packets.size(word) for word in words_of(payload)]
    if None in sizes:
        out.append("no size")
    logs = [size[1] for size in sizes if size]
    if logs and min(logs) < 12 + function.stu:
        out.append("below the unit")
    if logs and min(logs) != max(logs):
        out.append("sizes differ")
    elif logs and request.came and logs[0] != request.log2:
        out.append("another size than the first packet's")
    elif logs:
        first = request.address >> logs[0]
        last = (function.range_end(request) - 1) >> logs[0]
        if first + request.came + len(logs) - 1 > last:
            out.append("past the range")
    return out


MISFITS_FIRST = ("payload", "Byte Count not of 8", "Byte Count too small",
                 "Byte Count too large", "off the RCB", "no size",
                 "below the unit", "sizes differ", "past the range")
MISFITS_SECOND = ("Byte Count", "Length", "Lower Address", "no size",
                  "sizes differ", "another size than the first packet's",
                  "past the range")


def of_status(c, data):
    """Situations of a completion without data, for a TR or a read."""
    status = None if data or not c.read else c.packet.status
    for value in (1, 3, 4, 5, 6, 7):
        yield "status %d" % value, not c.is_("R5") and status == value
    yield "no data, status 0", c.is_("R8") and status == 0


def of_cpl_tr(c):
    """Situations of a completion for a TR."""
    b, a, request = c.before, c.after, c.request
    data = isinstance(c.packet, packets.CplData)
    off, second = not b.enabled, request.due > 0
    yield from of_reading(c)
    yield from of_forbidden(c)
    yield from of_status(c, data)
    ended = c.is_("A", "O")
    yield "100 after a first of two", c.is_("A") and second
    yield "other status after a first of two", c.is_("O") and second
    yield "entries stay after status", ended and any(a.slots)
    yield "100 for a stale TR", c.is_("A") and request.stale
    yield "other status, stale TR", c.is_("O") and request.stale
    yield "100, E clear", c.is_("A") and off
    yield "other status, E clear", c.is_("O") and off
    yield "5 alone", c.is_("R5")
    payload = c.rest[12:] if data else b""
    ours = data and c.packet.requester == b.id
    why = misfits(b, request, c.packet, payload) if ours else []
    if ours and bool(why) != c.is_("R8"):
        raise AssertionError("%s, but %r" % (c.answer, why))
    for cause in MISFITS_FIRST:
        yield "first: " + cause, why == [cause] and not second
    for cause in MISFITS_SECOND:
        yield "second: " + cause, why == [cause] and second
    past = why == ["past the range"]
    log2 = packets.size(words_of(payload)[0])[1] if past else 12
    last = (request.address >> log2) + request.came + len(payload) // 8 - 1
    yield "past the range and 2^64", past and last << log2 >= END
    yield "misfit of a stale TR", bool(why) and request.stale
    yield "misfit, E clear", bool(why) and off and not request.stale
    good = ours and not why
    count = c.packet.byte_count if good else 0
    total = len(payload) + (c.packet.lower if good else 0)
    alone = good and not second and count == len(payload)
    missed = alone and total % b.rcb > 0
    sizes = [packets.size(word) for word in words_of(payload)]
    yield "only packet off the RCB", missed and not request.stale and not off
    yield "off the RCB, stale", missed and request.stale
    yield "off the RCB, E clear", missed and off
    yield "off the RCB, entries would misfit", missed and None in sizes
    good = good and not missed
    for rcb in (64, 128):
        here = good and b.rcb == rcb
        yield "only packet, RCB %d" % rcb, here and alone
        yield "first of two, RCB %d" % rcb, here and c.is_("M")
        yield "second of two, RCB %d" % rcb, here and second and c.is_("F")
        yield "all that RCB %d allows" % rcb, here and 8 * len(
            words_of(payload)) == rcb
    yield "to the second multiple of RCB 64", (
        good and not second and b.rcb == 64 and total == 128)
    yield "fewer than asked", good and c.is_("F") and count < 8 * request.units
    begun = good and c.is_("X") and count > len(payload)
    yield "first of two, stale", begun and request.stale
    yield "first of two, E clear", begun and off and not request.stale
    last = good and c.is_("X") and count == len(payload)
    yield "last, stale", last and request.stale
    yield "last, E clear", last and off and not request.stale
    yield "second, stale", last and second and request.stale
    yield "second, E clear", last and second and off
    taken = good and c.is_("M", "F")
    yield from of_filling(c, taken, sizes, words_of(payload))


def of_filling(c, taken, sizes, words):
    """Situations of translations that were taken in."""
    b, a, request = c.before, c.after, c.request
    log2 = sizes[0][1] if taken else 12
    unit, size = 12 + b.stu, 1 << log2
    units = b.units_of(request)
    start = request.address // size * size + request.came * size
    covered = [u for u in units if start <= u < start + len(words) * size]
    yield "size of the unit, STU 0", taken and log2 == unit == 12
    yield "size of the unit, STU above 0", taken and log2 == unit > 12
    yield "size above the unit", taken and log2 > unit
    yield "size 2^64", taken and log2 == 64
    yield "one translation, several units", (taken and len(words) == 1
                                             and len(covered) > 1)
    yield "several large ones", (taken and len(words) > 1 and log2 > unit
                                 and len(covered) > len(words))
    yield "large ones over two packets", (
        taken and request.came > 0 and log2 > unit)
    yield "begins below the range", taken and start < units[0]
    yield "ends past the range", taken and (
        start + len(words) * size > b.range_end(request))
    yield "a first whose second cannot fit", c.is_("M") and (
        start + size * ((c.packet.byte_count if taken else 0) // 8 - 1)
        >= b.range_end(request))
    held = [u for u in covered if taken and b.slot_of(u) is not None]
    gone = [u for u in held if a.slot_of(u) is None]
    rights = [word & 3 for word in words]
    yield "R = W = 0 deletes", bool(gone) and 0 in rights
    yield "R = W = 0, nothing there", taken and rights == [0] and not held
    yield "R only and W only", taken and 1 in rights and 2 in rights
    kept = [u for u in held if a.slot_of(u) == b.slot_of(u)]
    yield "the same unit again", any(
        a.slots[a.slot_of(u)] != b.slots[b.slot_of(u)] for u in kept)
    new = [a.slot_of(u) for u in covered
           if taken and u not in held and a.slot_of(u) is not None]
    yield "lowest free slot below used ones", any(
        b.slots[slot] is None and any(b.slots[slot:]) for slot in new)
    steps = a.hand - b.hand
    yield "by the hand", steps == 1
    yield "by the hand, several", steps > 1
    yield "by the hand, not at slot 0", steps > 0 and b.hand % 32 > 0
    yield "the hand goes round", b.hand // 32 < a.hand // 32
    yield "by the hand, STU above 0", steps > 0 and b.stu > 0
    yield "full, but no use of the hand", (
        taken and all(b.slots) and steps == 0 and 0 not in rights)
    yield "a slot freed in the same packet", all(b.slots) and any(
        b.slots[slot].unit in gone for slot in new)
    yield "pushes out a unit of its own range", any(
        u not in gone and u not in kept for u in held)
    made = [a.slots[slot] for slot in new]
    yield "U", any(e.u for e in made)
    yield "N", any(e.n for e in made)
    yield "U with address bits", any(e.u for e in made) and any(
        w & 4 and w >> 32 for w in words)
    yield "unnamed bits set", taken and any(w & 0x3F8 for w in words)
    yield "the address translates to itself", any(
        e.unit == e.translated for e in made)


def of_cpl_read(c):
    """Situations of a completion for a read."""
    b, request = c.before, c.request
    data = isinstance(c.packet, packets.CplData)
    yield from of_reading(c)
    yield from of_forbidden(c)
    yield from of_status(c, data)
    begun = request.due < request.asked
    yield "more, then more", c.is_("P") and begun
    yield "more, then last", c.is_("L") and begun
    yield "last at once", c.is_("L") and not begun
    yield "32 DWORDs at once", c.is_("L") and len(c.rest) == 12 + 128
    yield "failed after more", c.is_("E") and begun
    yield "E clear", c.is_("P", "L") and not b.enabled
    yield "AT 00", c.is_("L") and not request.translated
    yield "more of a noted read", c.is_("P") and bool(request.itags)
    yield "last of a noted read", c.is_("L") and bool(request.itags)
    yield "noted read failed", c.is_("E") and bool(request.itags)
    yield "last that an ITag waits for", c.is_("L", "E") and (
        len(c.after.ready()) > len(b.ready()))
    yield "last, yet its ITag waits on", c.is_("L", "E") and any(
        request.itags & r.itags for r in reads(c.after))
    bad = data and c.is_("R8")
    count = c.packet.byte_count if data else 0
    yield "Byte Count of another", bad and count != request.due
    yield "Byte Count of all that was asked", (
        bad and begun and count == request.asked)
    yield "too much data", bad and count == request.due
    yield "Byte Count and data too much", bad and (
        count == len(c.rest) - 12 > request.due)
    yield "5 alone", c.is_("R5")


def of_cpl_none(c):
    """Situations of a completion without an open tag."""
    yield from of_reading(c)
    yield from of_forbidden(c)
    yield "free tag", c.is_("R7") and c.rest[10] < TAGS
    yield "tag above 31", c.is_("R7") and c.rest[10] >= TAGS
    yield "tag 32 more than an open one", c.is_("R7") and (
        TAGS <= c.rest[10] < 2 * TAGS
        and c.before.tags[c.rest[10] % TAGS] is not None)
    yield "5 and 7", c.is_("R5")
    yield "without data", c.is_("R7") and c.rest[0] == 0x0A
    yield "with data", c.is_("R7") and c.rest[0] == 0x4A
    yield "status 0", c.is_("R7") and c.rest[0] == 0x0A and c.rest[6] < 32


# --- messages -------------------------------------------------------------

def of_inv(c):
    """Situations of an Invalidate Request."""
    b, a, done = c.before, c.after, c.is_("D")
    base, log2 = 0, 12
    if c.read:
        base, log2 = packets.size(c.packet.address | c.packet.s << 11)
    small = 1 << log2
    size = max(small, b.unit_size())
    low, high = base // size * size, base // size * size + size
    yield from of_reading(c)
    yield "4: no size", c.is_("R4") and len(c.rest) == 24
    yield "4: Length not 2", c.is_("R4") and len(c.rest) != 24
    yield "the first after reset", done and b.agent is None
    yield "refused before the first", not done and b.agent is None
    yield "refused by 5 before the first", c.is_("R5") and b.agent is None
    yield "another agent", c.is_("R10") and c.packet.itag not in b.waiting
    yield "10 and 9", c.is_("R10") and c.packet.itag in b.waiting
    yield "5 and 10", c.is_("R5") and b.agent not in (None, c.packet.sender)
    held = frozenset().union(*(r.itags for r in reads(b)))
    yield "ITag ready, not drained", c.is_("R9") and c.packet.itag not in held
    yield "ITag held by a read", c.is_("R9") and c.packet.itag in held
    yield "E clear", done and not b.enabled
    yield "E clear, with entries", done and not b.enabled and any(b.slots)
    yield "size of the unit", done and small == b.unit_size()
    yield "below the unit", done and small < b.unit_size()
    yield "below the unit, not its first page", (
        done and small < b.unit_size() and base != low)
    yield "above the unit", done and small > b.unit_size()
    yield "2^64", done and log2 == 64
    yield "up to 2^64", done and log2 < 64 and high == END
    lost = [e for e, now in zip(b.slots, a.slots) if e and not now]
    yield "deletes one", done and len(lost) == 1
    yield "deletes several", done and len(lost) > 1
    yield "deletes the last unit", done and any(
        e.unit + b.unit_size() == END for e in lost)
    yield "entries stay", done and any(a.slots)
    yield "deletes by rounding up alone", done and any(
        not overlap(base, base + small, e.unit, e.unit + PAGE)
        for e in lost) and small < b.unit_size()
    turned = [t for t, now in zip(b.tags, a.tags)
              if isinstance(t, OpenTr) and not t.stale and now.stale]
    yield "makes a TR stale", bool(turned)
    yield "by a later unit alone", any(
        b.unit_of(t.address) + b.unit_size() <= low for t in turned)
    yield "between two packets", any(t.due for t in turned)
    yield "leaves another TR", done and any(not t.stale for t in trs(a))
    noted = [r for r in reads(a) if done and c.packet.itag in r.itags]
    yield "notes one read", len(noted) == 1
    yield "notes several reads", len(noted) > 1
    yield "notes a read noted before", any(len(r.itags) > 1 for r in noted)
    yield "notes a read half answered", any(r.due < r.asked for r in noted)
    yield "leaves a read", done and any(
        r.translated and c.packet.itag not in r.itags for r in reads(a))
    yield "leaves a read with AT 00", done and any(
        not r.translated and overlap(low, high, r.address,
                                     r.address + r.asked) for r in reads(a))
    yield "notes by rounding up alone", any(
        not overlap(base, base + small, r.address, r.address + r.asked)
        for r in noted)
    yield "nothing overlaps", done and not (lost or turned or noted)
    yield "ITag used again", done and b.agent is not None


def of_prs(c):
    """Situations of a PRG Response."""
    b, done = c.before, c.is_("D")
    code = c.packet.code if c.read else 0
    index = c.packet.index if c.read else 0
    group = b.groups[index] if index < TAGS else None
    yield from of_reading(c)
    yield "4: TC not 0", c.is_("R4")
    for value in (0, 1):
        yield "code %d closes" % value, done and code == value
        yield "index above 31, code %d" % value, (
            c.is_("R7") and b.pages == ON and code == value and index > 31)
    closed = done and code < 2
    yield "one credit back", closed and group.sent == 1
    yield "several credits back", closed and group.sent > 1
    yield "credits had run out", closed and b.credits == 0
    yield "other groups stay", closed and any(g.sent for g in c.after.groups)
    waiting_not = c.is_("R7") and b.pages == ON and group is not None
    yield "group never begun", waiting_not and group.sent == 0
    yield "group without L", waiting_not and group.sent > 0
    yield "7 when off", c.is_("R7") and b.pages == OFF
    yield "7 when stopped", c.is_("R7") and b.pages == STOPPED
    yield "7 for a failure when off", (
        c.is_("R7") and b.pages == OFF and code > 1)
    yield "7 for a failure when stopped", (
        c.is_("R7") and b.pages == STOPPED and code > 1)
    stops = done and code > 1
    yield "stopped by 2", stops and code == 2
    yield "stopped by 15", stops and code == 15
    yield "stopped by another", stops and 2 < code < 15
    yield "stopped, index above 31", stops and index > 31
    yield "stopped with groups waiting", stops and any(
        g.waits for g in b.groups)
    yield "5 and 7", c.is_("R5") and b.pages != ON


def of_other(c):
    """Situations of a packet that is none of these."""
    r2, r4 = c.is_("R2"), c.is_("R4")
    byte0 = c.rest[0] if c.rest else 0xFF
    at = c.rest[2] >> 2 & 3 if len(c.rest) > 2 else 0
    yield from of_reading(c)
    yield "1: empty", len(c.rest) == 0
    yield "1: 11 bytes", len(c.rest) == 11
    yield "4: AT 11", r4 and byte0 != 0x30 and at == 3
    yield "4: AT 01 in a write", r4 and byte0 in (0x40, 0x60) and at == 1
    yield "4: a TR", r4 and byte0 in (0x00, 0x20) and at == 1
    yield "4: a read", r4 and byte0 in (0x00, 0x20) and at in (0, 2)
    yield "4: a write", r4 and byte0 in (0x40, 0x60) and at in (0, 2)
    yield "4: a PRQ", r4 and byte0 == 0x30
    yield "unlisted byte 0", r2 and c.rest[0] not in packets.HEADER
    yield "unpaired code", r2 and not c.read and c.rest[0] in packets.CODES
    for kind in (packets.Tr, packets.MemRead, packets.MemWrite, packets.Ic,
                 packets.Prq):
        yield kind.__name__, r2 and isinstance(c.packet, kind)


SITUATIONS = {
    "reset": of_reset, "enable": of_enable, "disable": of_disable,
    "ask": of_ask, "read": of_read, "write": of_write,
    "CPL for TR": of_cpl_tr, "CPL for read": of_cpl_read,
    "CPL, no tag": of_cpl_none, "INV": of_inv, "PRS": of_prs,
    "other": of_other, "drain": of_drain, "pages on": of_pages_on,
    "pages off": of_pages_off, "page request": of_page_request,
}


class Tally:
    """Counts of cells and of situations, and what others count."""

    def __init__(self, *more):
        self.cells = {}
        self.situations = {}
        self.more = more        # counters that look at each call as well

    def add(self, before, after, data, answer):
        """Count one call."""
        seen = Seen(before, after, data, answer)
        cell = seen.row, cell_of(answer)
        self.cells[cell] = self.cells.get(cell, 0) + 1
        for name, holds in SITUATIONS[seen.row](seen):
            key = seen.row, name
            self.situations[key] = self.situations.get(key, 0) + bool(holds)
        for counter in self.more:
            counter.add(seen)

    def faults(self):
        """What should have come and did not, and the other way round."""
        out = []
        for row, text in REACHABLE.items():
            for column in NUMBERS + ANSWERS:
                seen = self.cells.get((row, column), 0)
                if column in text.split() and not seen:
                    out.append("never seen: %s, %s" % (row, column))
                if column not in text.split() and seen:
                    out.append("cannot be: %s, %s" % (row, column))
        for (row, name), count in self.situations.items():
            if not count:
                out.append("never seen: %s, %s" % (row, name))
        for counter in self.more:
            out.extend(counter.faults())
        return out

    def table(self):
        """The lines of the table, numbers then answers."""
        for title, columns in (("calls", NUMBERS), ("answers", ANSWERS)):
            yield "%-14s%s" % (title, "".join("%5s" % c for c in columns))
            for row, text in REACHABLE.items():
                cells = []
                for column in columns:
                    seen = self.cells.get((row, column), 0)
                    possible = column in text.split()
                    cells.append(str(seen) if seen or possible else "-")
                yield "  %-12s%s" % (row, "".join("%5s" % c for c in cells))
        rarest = min(self.situations.values())
        yield "situations: %d, the rarest seen %d times" % (
            len(self.situations), rarest)
        for counter in self.more:
            yield counter.line()
