"""Which role each entry of each table has played in a script of calls.

A role is what a call does to a slot, a tag, a group or an ITag, or what it
finds there; it is told from the states around the call. Every entry must have
every role, the first and the last of each table more than once.
"""

from function import GROUPS, ON, TAGS, OpenRead, OpenTr

ENTRIES = 32                    # of each table
ENDS_AT_LEAST = 2               # how often for the first and the last entry
LONGEST_RUN = 300               # uses of the hand without a reset
HAND_PASSES = (32, 64, 128, 256)
DRAINS = (1, 2, 16, 31, 32)     # how many ITags at once

ROLES = (
    "slot filled while free", "slot filled with its own unit",
    "slot replaced by the hand", "slot found by a read",
    "slot found by a write", "slot without R found", "slot without W found",
    "slot deleted by a completion", "slot deleted by an INV",
    "slot left by an INV", "slot emptied by enable", "slot emptied by reset",
    "tag opened by an ask", "tag opened by a read",
    "tag: only packet", "tag: first of two", "tag: second of two",
    "tag: off the boundary", "tag: stale, discarded", "tag: aborted",
    "tag: switched off", "tag: TR refused", "tag: stale by an INV",
    "tag: stale by enable", "tag: TR left by an INV",
    "tag: part of a read", "tag: rest of a read", "tag: read at once",
    "tag: read failed", "tag: read refused", "tag: read noted",
    "tag: read left by an INV", "tag: noted read ended",
    "tag: holds a drain back", "tag: alone holds a drain back",
    "tag: free", "tag closed by reset",
    "ITag requested", "ITag 9 while ready", "ITag 9 while held back",
    "ITag 10 while it waits", "ITag drained alone",
    "ITag drained with others", "ITag held back", "ITag forgotten by reset",
    "group begun", "group goes on", "group waits", "group 16",
    "group closed by 0", "group closed by 1", "group: several credits back",
    "group 7, never begun", "group 7, without L",
    "group closed by a failure", "group closed by switching off",
    "group closed by reset",
)


def places(table, holds):
    """Where something holds of an entry of a table."""
    return [at for at, entry in enumerate(table) if entry and holds(entry)]


def is_tr(entry):
    """A Translation Request?"""
    return isinstance(entry, OpenTr)


def is_read(entry):
    """A read?"""
    return isinstance(entry, OpenRead)


def anything(_):
    """Any entry at all."""
    return True


def begun(group):
    """Has a group sent something?"""
    return group.sent > 0


def of_state(c):
    """Roles in a reset, an enabling and a switching off."""
    b = c.before
    if c.name == "reset" and c.is_("D"):
        yield "slot emptied by reset", places(b.slots, anything)
        yield "tag closed by reset", places(b.tags, anything)
        yield "ITag forgotten by reset", b.waiting
        yield "group closed by reset", places(b.groups, begun)
    if c.name == "enable" and not b.enabled:
        yield "slot emptied by enable", places(b.slots, anything)
        yield "tag: stale by enable", places(
            b.tags, lambda t: is_tr(t) and not t.stale)
    if c.name == "pages off" and b.pages == ON:
        yield "group closed by switching off", places(b.groups, begun)


def of_calls(c):
    """Roles in calls that send."""
    b = c.before
    if c.name in ("ask", "read") and c.is_("T"):
        by = "an ask" if c.name == "ask" else "a read"
        yield "tag opened by " + by, [int(c.answer[1:])]
    if c.name in ("read", "write"):
        slot = [b.slot_of(b.unit_of(c.f["address"]))]
        if c.is_("T", "D"):
            yield "slot found by a " + c.name, slot
        if c.is_("R14"):
            yield "slot without %s found" % c.name[0].upper(), slot
    if c.name == "drain" and not c.is_("R17"):
        ready = b.ready()
        yield ("ITag drained alone" if len(ready) == 1
               else "ITag drained with others"), ready
        yield "ITag held back", b.waiting - set(ready)
        noted = places(b.tags, lambda t: is_read(t) and t.itags & b.waiting)
        yield "tag: holds a drain back", noted
        if len(noted) == 1:
            yield "tag: alone holds a drain back", noted
    if c.name == "page request":
        index = c.f["index"]
        group = b.groups[index] if index < GROUPS else None
        if c.is_("D"):
            yield ("group waits" if c.f["flags"] > 3 else
                   "group goes on" if group.sent else "group begun"), [index]
        if c.is_("R16") and group.waits and b.credits:
            yield "group 16", [index]


def of_slots(c):
    """Roles of slots in a completion or an INV that is taken."""
    for at, (old, new) in enumerate(zip(c.before.slots, c.after.slots)):
        if c.row == "INV":
            if old:
                yield ("slot left by an INV" if new
                       else "slot deleted by an INV"), [at]
        elif old != new:
            if new is None:
                yield "slot deleted by a completion", [at]
            elif old is None:
                yield "slot filled while free", [at]
            elif old.unit == new.unit:
                yield "slot filled with its own unit", [at]
            else:
                yield "slot replaced by the hand", [at]


def of_completion(c):
    """Roles of a tag in a completion."""
    tag = [c.rest[10]]
    if c.row == "CPL, no tag" and c.is_("R7") and tag[0] < TAGS:
        yield "tag: free", tag
    if c.row == "CPL for TR":
        stale = c.request.stale or not c.before.enabled
        yield {"F": "tag: second of two" if c.request.due
               else "tag: only packet", "M": "tag: first of two",
               "X": "tag: stale, discarded" if stale
               else "tag: off the boundary", "A": "tag: aborted",
               "O": "tag: switched off",
               "R8": "tag: TR refused"}.get(kind(c)), tag
    if c.row == "CPL for read":
        parts = c.request.due < c.request.asked
        yield {"P": "tag: part of a read", "L": "tag: rest of a read" if parts
               else "tag: read at once", "E": "tag: read failed",
               "R8": "tag: read refused"}.get(kind(c)), tag
        if c.is_("L", "E") and c.request.itags:
            yield "tag: noted read ended", tag


def kind(c):
    """The answer without its number, or a refusal with it."""
    return c.answer if c.answer[0] == "R" else c.answer[0]


def of_inv(c):
    """Roles in an Invalidate Request."""
    b, a = c.before, c.after
    itag = [c.rest[6] & 31]
    if c.is_("D"):
        yield "ITag requested", itag
        for at, (old, new) in enumerate(zip(b.tags, a.tags)):
            if is_tr(old) and not old.stale:
                yield ("tag: stale by an INV" if new.stale
                       else "tag: TR left by an INV"), [at]
            if is_read(old) and old.translated:
                yield ("tag: read noted" if itag[0] in new.itags
                       else "tag: read left by an INV"), [at]
    if c.is_("R9"):
        yield ("ITag 9 while ready" if itag[0] in b.ready()
               else "ITag 9 while held back"), itag
    if c.is_("R10") and itag[0] in b.waiting:
        yield "ITag 10 while it waits", itag


def of_response(c):
    """Roles in a PRG Response."""
    b = c.before
    if not c.read or b.pages != ON or not c.is_("D", "R7"):
        return
    index, code = c.packet.index, c.packet.code
    if code > 1:
        yield "group closed by a failure", places(b.groups, begun)
    elif index < GROUPS:
        sent = b.groups[index].sent
        if c.is_("D"):
            yield "group closed by %d" % code, [index]
            yield "group: several credits back", [index] if sent > 1 else []
        else:
            yield ("group 7, without L" if sent
                   else "group 7, never begun"), [index]


def roles_of(c):
    """(role, entries) of a call."""
    yield from of_state(c)
    yield from of_calls(c)
    if c.row.startswith("CPL"):
        yield from of_completion(c)
        if c.is_("M", "F"):
            yield from of_slots(c)
    if c.row == "INV":
        yield from of_inv(c)
        if c.is_("D"):
            yield from of_slots(c)
    if c.row == "PRS":
        yield from of_response(c)


class Roles:
    """Counts of roles, of passes of the hand, of drains."""

    def __init__(self):
        self.seen = {role: [0] * ENTRIES for role in ROLES}
        self.passes = dict.fromkeys(HAND_PASSES, 0)
        self.drains = dict.fromkeys(range(ENTRIES + 1), 0)
        self.longest = 0

    def add(self, c):
        """Count one call."""
        for role, entries in roles_of(c):
            if role is not None:
                for at in entries:
                    self.seen[role][at] += 1
        for value in HAND_PASSES:
            self.passes[value] += c.before.hand < value <= c.after.hand
        self.longest = max(self.longest, c.after.hand)
        if c.name == "drain" and c.is_("C"):
            self.drains[int(c.answer[1:])] += 1

    def faults(self):
        """What should have come, or come oftener."""
        for role, counts in self.seen.items():
            for at, count in enumerate(counts):
                wanted = ENDS_AT_LEAST if at in (0, ENTRIES - 1) else 1
                if count < wanted:
                    yield "seen %d times: %s, %d" % (count, role, at)
        for value, count in self.passes.items():
            if count < ENDS_AT_LEAST:
                yield "seen %d times: the hand passes %d" % (count, value)
        for value in DRAINS:
            if self.drains[value] < ENDS_AT_LEAST:
                yield "seen %d times: a drain of %d" % (self.drains[value],
                                                        value)
        if self.longest < LONGEST_RUN:
            yield "the hand is used %d times in one run" % self.longest

    def line(self):
        """What the table of roles comes to."""
        return "roles: %d of 32 entries each, the rarest seen %d times; " \
            "the hand used up to %d times in one run" % (
                len(ROLES), min(map(min, self.seen.values())), self.longest)
