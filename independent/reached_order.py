"""Which refusals were due at once in a script of calls.

Every refusal is judged by itself, from the state before a call and from the
bytes it was given, whatever else is wrong with it. The answer must be the one
that comes first in document 01's order; and every pair that can be due at
once must have been so several times, so that no two can be exchanged unseen.
"""

import packets
import reached
from function import END, GROUPS, ON, PAGE, STOPPED, OpenTr

AT_LEAST = 3

# Row -> the order, and the pairs that can never be due at once. For packets
# of no known kind 1 and 2 come twice: 1 for a length out of all bounds or
# just another, 2 for byte 0 or the code or the kind.
ORDER = {
    "ask": ("6 12 11 17", ""),
    "read": ("6 12 13 14 11 17", "13-14"),
    "write": ("6 12 13 14 17", "13-14"),
    "page request": ("15 12 16 17", "15-16"),
    "pages on": ("15 12", ""),
    "CPL for TR": ("1 3 4 5 8", ""),
    "CPL for read": ("1 3 4 5 8", ""),
    "CPL, no tag": ("1 3 4 5 7 8", "4-8"),
    "INV": ("1 3 4 5 10 9", ""),
    "PRS": ("1 3 4 5 7", ""),
    "other": ("1a 2a 1b 3 4 2b", "1a-1b 1a-3 1a-4 1a-2b 2a-4 2a-2b"),
}


def pairs_of(row):
    """The pairs of a row that can be due at once, in order."""
    order, never = ORDER[row]
    names = order.split()
    return [(a, b) for at, a in enumerate(names) for b in names[at + 1:]
            if "%s-%s" % (a, b) not in never.split()]


# --- calls ----------------------------------------------------------------

def due_ask(c):
    """Numbers due for an ask."""
    b, f = c.before, c.f
    end = b.unit_of(f["address"]) + f["units"] * b.unit_size()
    yield "6", not b.enabled
    yield "12", not 1 <= f["units"] <= b.rcb // 8 or end > END
    yield "11", all(b.tags)
    yield "17", f["room"] < (12 if f["address"] < 1 << 32 else 16)


def due_access(c):
    """Numbers due for a read or a write."""
    b, f, writes = c.before, c.f, c.name == "write"
    address, words = f["address"], f["words"]
    slot = b.slot_of(b.unit_of(address))
    entry = None if slot is None else b.slots[slot]
    sent = address if entry is None or entry.u else (
        entry.translated + address - entry.unit)
    payload = 4 * words if writes else 0
    yield "6", not b.enabled
    yield "12", (not 1 <= words <= 32 or address % 4 > 0
                 or address % PAGE + 4 * words > PAGE
                 or len(c.rest) != payload)
    yield "13", entry is None
    yield "14", entry is not None and not (entry.w if writes else entry.r)
    yield "11", not writes and all(b.tags)
    header = 12 if entry is None or sent < 1 << 32 else 16
    yield "17", f["room"] < header + (len(c.rest) if writes else 0)


def due_page(c):
    """Numbers due for a page request."""
    b, f = c.before, c.f
    group = b.groups[f["index"]] if f["index"] < GROUPS else None
    yield "15", b.pages != ON
    yield "12", (f["flags"] % 4 == 0 or f["address"] % PAGE > 0
                 or group is None)
    yield "16", b.pages == ON and (b.credits == 0 or group is not None
                                   and group.waits)
    yield "17", f["room"] < 16


def due_on(c):
    """Numbers due for switching on."""
    yield "15", c.before.pages == STOPPED
    yield "12", c.before.pages == ON or not 1 <= c.f["allocation"] <= 512


# --- packets --------------------------------------------------------------

def length_due(rest):
    """How long the header says it is; None if byte 0 is unknown."""
    if rest[0] not in packets.HEADER:
        return None
    length = int.from_bytes(rest[2:4], "big") & 0x3FF
    return packets.HEADER[rest[0]] + (
        4 * (length or 1024) if rest[0] in packets.CARRIES else 0)


def mended(rest, status=False):
    """The packet with its right length, without TD and EP (and status)."""
    out = bytearray(rest + bytes(packets.LONGEST))[:length_due(rest)]
    out[2] &= 0x3F
    if status:
        out[6] &= 0x1F
    return bytes(out)


def due_common(c):
    """1, 3, 4 and 5, for a packet that is told by its bytes."""
    rest = c.rest
    yield "1", len(rest) != length_due(rest) or len(rest) > packets.LONGEST
    yield "3", rest[2] & 0xC0 > 0
    yield "4", packets.read(mended(rest)) == 4
    yield "5", rest[8:10] != c.before.id.to_bytes(2, "big")


def due_completion(c):
    """Numbers due for a completion."""
    b, rest = c.before, c.rest
    yield from due_common(c)
    yield "7", c.request is None
    if rest[0] == 0x0A:
        yield "8", rest[6] < 32
    elif c.request is not None:
        whole = mended(rest, status=True)
        fields = packets.read(whole)
        yield "8", not isinstance(fields, int) and misfits(
            b, c.request, fields, whole[12:])


def misfits(function, request, fields, payload):
    """Does a completion with data not fit what it is for?"""
    if isinstance(request, OpenTr):
        return bool(reached.misfits(function, request, fields, payload))
    return (fields.byte_count != request.due
            or len(payload) > request.due)


def due_inv(c):
    """Numbers due for an Invalidate Request."""
    b = c.before
    yield from due_common(c)
    sender = int.from_bytes(c.rest[4:6], "big")
    yield "10", b.agent is not None and sender != b.agent
    yield "9", c.rest[6] & 31 in b.waiting


def due_prs(c):
    """Numbers due for a PRG Response."""
    b = c.before
    yield from due_common(c)
    code, index = c.rest[10] >> 4, int.from_bytes(c.rest[10:12], "big") & 511
    yield "7", b.pages != ON or code < 2 and (
        index >= GROUPS or not b.groups[index].waits)


def due_other(c):
    """Numbers due for any other packet."""
    rest = c.rest
    outer = not packets.SHORTEST <= len(rest) <= packets.LONGEST
    yield "1a", outer
    listed = bool(rest) and rest[0] in packets.HEADER
    paired = listed and len(rest) > 7 and (
        rest[0] not in packets.CODES or rest[7] in packets.CODES[rest[0]])
    yield "2a", bool(rest) and not (paired or listed and len(rest) <= 7)
    if outer:
        return
    yield "1b", listed and len(rest) != length_due(rest)
    yield "3", rest[2] & 0xC0 > 0
    if paired:
        yield "4", packets.read(mended(rest)) == 4
        yield "2b", True


DUE = {"ask": due_ask, "read": due_access, "write": due_access,
       "page request": due_page, "pages on": due_on,
       "CPL for TR": due_completion, "CPL for read": due_completion,
       "CPL, no tag": due_completion, "INV": due_inv, "PRS": due_prs,
       "other": due_other}


class Order:
    """Counts of pairs of refusals that were due at once."""

    def __init__(self):
        self.pairs = {(row, *pair): 0 for row in ORDER
                      for pair in pairs_of(row)}

    def add(self, c):
        """Count one call; its answer must be the first that is due."""
        if c.row not in DUE:
            return
        due = {name for name, holds in DUE[c.row](c) if holds}
        names = [n for n in ORDER[c.row][0].split() if n in due]
        want = "R" + names[0].rstrip("ab") if names else None
        if (c.answer if c.answer[0] == "R" else None) != want:
            raise AssertionError("%s, but %r: %s %r" % (
                c.answer, names, c.row, c.rest.hex() or c.f))
        for at, first in enumerate(names):
            for later in names[at + 1:]:
                if (c.row, first, later) in self.pairs:
                    self.pairs[c.row, first, later] += 1

    def faults(self):
        """Pairs that came too seldom."""
        for (row, first, later), count in self.pairs.items():
            if count < AT_LEAST:
                yield "seen %d times: %s, %s before %s" % (count, row, first,
                                                           later)

    def line(self):
        """What the table of pairs comes to."""
        return "pairs of refusals: %d, the rarest seen %d times" % (
            len(self.pairs), min(self.pairs.values()))
