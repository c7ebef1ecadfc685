"""Fixed scripts that take every entry of every table through every role.

Slots, tags, groups and ITags, the first and the last of them more than once;
then the hand, with more than 300 replacements in one run and the slot that is
next shown by what is still cached.
"""

from cases_sizes import coded
from function import GROUPS, PAGE, SLOTS, TAGS
from scripts_calls import (DISABLE, ENABLE, OTHER, PAGES_OFF, US, ask, begin,
                           bring, cached, drain, fail, ic, inv, pages_on,
                           read, reply, reset, respond, want_page, write)

ENDS = (0, 15, 16, 30, 31)      # the places that a second round looks at
PAY = "01020304"


class Cache:
    """Units that fill the ATC, unit i in slot i, and calls on them."""

    def __init__(self, stu, rcb, home):
        self.size, self.log2 = PAGE << stu, 12 + stu
        self.stu, self.rcb, self.home = stu, rcb, home

    def unit(self, i):
        """The i-th unit."""
        return self.home + i * self.size

    def word(self, i, rights=3):
        """A translation for it."""
        return coded((1 << 45) + i * self.size, self.log2) | rights

    def fill(self, *numbers, rights=3, tag=0):
        """Units one after another asked for at once and filled."""
        return cached(tag, self.unit(numbers[0]),
                      *[self.word(i, rights) for i in numbers], rcb=self.rcb)

    def full(self, first=0):
        """All 32 slots filled, after a reset or an emptying."""
        most = self.rcb // 8
        return tuple(step for at in range(first, first + SLOTS, most)
                     for step in self.fill(*range(at, at + most)))

    def begin(self):
        """A reset, then a full cache."""
        return begin(self.stu, self.rcb) + self.full()

    def held(self, i):
        """A write that shows that unit i is cached."""
        sent = ((1 << 45) + i * self.size).to_bytes(8, "big").hex()
        return write(self.unit(i), PAY), "D", (
            "60000801 0100000F" + sent + PAY)

    def gone(self, i):
        """A write that shows that it is not."""
        return write(self.unit(i), PAY), "R13"

    def inv(self, itag, i):
        """An Invalidate Request for unit i."""
        return inv(itag, coded(self.unit(i), self.log2)), "D"


SMALL = Cache(0, 64, 0)
LARGE = Cache(1, 128, 0xFFFFFFF0000)


# --- slots ----------------------------------------------------------------

def slot_roles(c, i):
    """Unit i in slot i: found, replaced, deleted, filled, invalidated."""
    return ((read(c.unit(i), 2), "T0"), (bring(0, PAY * 2), "L", "", PAY * 2),
            c.held(i), *c.fill(i, rights=1), (write(c.unit(i), PAY), "R14"),
            *c.fill(i, rights=2), (read(c.unit(i)), "R14"),
            *c.fill(i, rights=0), c.gone(i), *c.fill(i), c.held(i),
            c.inv(i, i), c.gone(i), *c.fill(i), (drain(), "C1", ic(
                "%08X" % (1 << i))))


def emptied(c, by):
    """All 32 slots emptied by some calls; all are filled again."""
    return by + tuple(c.gone(i) for i in ENDS) + c.full()


EVERY_SLOT = ("every slot in every role", SMALL.begin() + tuple(
    step for i in range(SLOTS) for step in slot_roles(SMALL, i)) + tuple(
    SMALL.held(i) for i in range(SLOTS)) + emptied(
        SMALL, ((DISABLE, "D"), (ENABLE, "D"))) + (
    # All 32 deleted at once, by a large range and by large regions.
    (inv(0, 0xF800), "D"), SMALL.gone(0), SMALL.gone(31), (drain(), "C1"),
) + SMALL.full() + tuple(
    step for at in range(0, SLOTS, 8) for step in (
        (ask(SMALL.unit(at), 8), "T0"), (reply(0, 0xF800), "F"),
        SMALL.gone(at), SMALL.gone(at + 7))))

EVERY_SLOT_AGAIN = ("the first, the middle and the last slots",
                    LARGE.begin() + tuple(
    step for i in ENDS for step in slot_roles(LARGE, i)) + emptied(
        LARGE, ((DISABLE, "D"), (ENABLE, "D"))) + emptied(
        LARGE, begin(1, 128)) + (
    (inv(0, coded(LARGE.home, 18)), "D"), LARGE.gone(0), LARGE.gone(31)))

# --- places far into a unit -----------------------------------------------


def far(stu, home):
    """Accesses all over a unit, and just outside of it."""
    size, base = PAGE << stu, 5 << 60
    steps = cached(0, home, coded(base, 12 + stu) | 3)
    for place in (0, size // 2, size // 4 * 3 + 0x124, size - 4):
        sent = (base + place).to_bytes(8, "big").hex()
        steps += ((write(home + place, PAY), "D",
                   "60000801 0100000F" + sent + PAY),
                  (read(home + place), "T0", "20000801 0100000F" + sent),
                  (fail(0, 1), "E"))
    return steps + ((write(home - 4, PAY), "R13"), (read(home + size), "R13"),
                    (write(home + 2 * size - 4, PAY), "R13"))


FAR = ("places far into a unit", tuple(
    step for stu in (19, 20, 21, 25, 31) for step in begin(stu) + far(
        stu, 3 << 61) + far(stu, 7 << 44)))

# --- units that differ in one bit -----------------------------------------

ONE_BIT = ("units that differ in one bit", begin() + cached(
    0, 0x5A3C5A3C5A3C5000, 0x9003) + tuple(
    (write(0x5A3C5A3C5A3C5000 ^ 1 << bit, PAY), "R13")
    for bit in range(12, 64)) + begin(stu=5) + cached(
    0, 0xA5C3A5C3A5C20000, coded(0x40000, 17) | 3) + tuple(
    (read(0xA5C3A5C3A5C20000 ^ 1 << bit), "R13") for bit in range(17, 64)))

# --- the hand -------------------------------------------------------------


def push(c, first, count):
    """Fill units that are not cached: so many are replaced."""
    most = c.rcb // 8
    steps = ()
    while count:
        now = min(most, count)
        steps += c.fill(*range(first, first + now))
        first, count = first + now, count - now
    return steps


def pushes(c, counts):
    """Units from 32 on, so many at a time; what went and what is next."""
    steps, at = (), SLOTS
    for count in counts:
        steps += push(c, at, count)
        at += count
        steps += (c.gone(at - SLOTS - 1), c.held(at - SLOTS),
                  c.held(at - 1))
    return steps


ROUNDS = ((1,) * 34 + (3, 5, 7, 8, 2, 1) * 3 + (1,) * 8 + (5,) + (8,) * 6
          + (1,) * 70 + (7, 8, 8) + (1,) * 12 + (8,) * 8)


def hand_kept(c, used):
    """Enabling leaves the hand, which was used so often, where it was."""
    steps = ((DISABLE, "D"), (ENABLE, "D")) + c.full()
    for i in range(4):
        slot = (used + i) % SLOTS
        steps += (c.held(slot), *c.fill(1000 + i), c.gone(slot),
                  c.held((slot + 1) % SLOTS))
    return steps


HAND_ROUNDS = ("the hand goes round more than ten times", SMALL.begin()
               + pushes(SMALL, ROUNDS) + hand_kept(SMALL, sum(ROUNDS)))

HAND_ROUNDS_AGAIN = ("the hand goes round with a larger unit",
                     LARGE.begin() + pushes(LARGE, (1, 16, 13, 1, 1, 16, 15)
                                            + (16,) * 12 + (1, 1, 1)))


def hand_to_65536():
    """16 units at a time, three lots in turn: all but the first two push."""
    steps = begin(rcb=128)
    for turn in range(65536 // 16 + 4):
        # 64 KiB regions: one translation for the sixteen units.
        steps += ((ask(turn % 3 << 16, 16), "T0"),
                  (reply(0, 0xF803, rcb=128), "F"))
    # The lot before the last two has gone.
    return steps + ((read(0x20000), "R13"), (read(0x2F000), "R13"),
                    (read(0xF000), "T0"), (read(0x1F000), "T1"))


LONGEST_RUN = ("the hand passes 65536", hand_to_65536())

# --- tags: Translation Requests -------------------------------------------


def at(tag):
    """Two units of its own for each tag."""
    return 0x40000000 + 0x4000 * tag


def tr_ends(tag):
    """A request on a tag ended in each way, and asked for again."""
    again = ask(at(tag), 2), "T%d" % tag
    return ((reply(tag, 0x9003, count=24), "R8"),
            (reply(tag, 0x9003, count=16), "M"),
            (reply(tag, 0xA003, lower=64), "R8"),
            (reply(tag, 0xA003, lower=0), "F"), again,
            (reply(tag, 0x9003, 0xA003), "F"), again,
            (reply(tag, 0x9003, lower=0), "X"), again,
            (fail(tag, 0), "R8"), (fail(tag, 4), "A"), (fail(tag, 4), "R7"),
            (reply(tag, 0x9003), "R7"), again)


def tr_stale(tag):
    """Made stale by an INV of its second unit; ended; asked for again."""
    last = ((reply(tag, 0x9003, 0xA003), "X"),)
    if tag % 2:
        last = ((reply(tag, 0x9003, count=16), "X"),
                (reply(tag, 0xA003, lower=0), "X"))
    return ((inv(tag, at(tag) + 0x1000), "D"), *last,
            (write(at(tag), PAY), "R13"), (ask(at(tag), 2), "T%d" % tag))


def tr_off(tag):
    """Switched off; enabling makes the one asked for before stale."""
    status = (1, 3, 5, 6, 7)[tag % 5]
    return ((fail(tag, status), "O"), (ask(at(tag), 2), "R6"), (ENABLE, "D"),
            (ask(at(tag), 2), "T%d" % tag))


def open_all():
    """A request on every tag."""
    return tuple((ask(at(tag), 2), "T%d" % tag) for tag in range(TAGS))


ALL_STALE = tuple((reply(tag, 0x9003), "X") for tag in range(TAGS))

EVERY_TAG = ("a Translation Request on every tag", begin() + open_all() + (
    (ask(0), "R11"),
) + tuple(step for tag in (*range(TAGS), 31, 0) for step in tr_ends(tag)) + (
    (inv(0, coded(0x40000000, 21)), "D"), (drain(), "C1"),
) + ALL_STALE + open_all() + tuple(
    step for tag in range(TAGS) for step in tr_stale(tag)) + (
    (drain(), "C32", ic("FFFFFFFF")), (DISABLE, "D"), (ENABLE, "D"),
) + ALL_STALE + open_all() + tuple(
    step for tag in (*range(TAGS), 31, 0) for step in tr_off(tag)) + (
    (DISABLE, "D"), (ENABLE, "D"), (reply(31, 0x9003), "X"),
    (ask(0), "T31"), (DISABLE, "D"), (reply(31, 0x9003), "X"),
    (fail(30, 5), "O"), (ENABLE, "D"), (reply(0, 0x9003), "X"),
    (reply(29, 0x9003), "X"), (ask(at(0), 2), "T0"), (ask(at(29)), "T29"),
    (ask(at(30)), "T30"), (ask(at(31), 2), "T31"),
    (inv(31, at(31) + 0x1000), "D"), (inv(0, at(0) + 0x1000), "D"),
    (reply(31, 0x9003), "X"), (reply(0, 0x9003, count=16), "X"),
    (fail(0, 7), "O"),
    # A reset closes what is open, and nothing is known of it.
    *begin(), (reply(31, 0x9003), "R7"), (reply(30, 0x9003), "R7"),
    (reply(0, 0x9003), "R7"), *open_all(), *begin(),
    (fail(31, 4), "R7"), (fail(0, 4), "R7"), (ask(0), "T0")))

# --- tags: reads ----------------------------------------------------------


def read_ends(tag):
    """A read on a tag ended in each way, and begun again."""
    again = read(SMALL.unit(tag) + 8, 2), "T%d" % tag
    return ((bring(tag, PAY, count=4), "R8"), (bring(tag, PAY * 3, 8), "R8"),
            (bring(tag, PAY, count=8), "P", "", PAY),
            (bring(tag, PAY, count=8), "R8"),
            (bring(tag, PAY), "L", "", PAY), (bring(tag, PAY), "R7"), again,
            (bring(tag, PAY * 2), "L", "", PAY * 2), again,
            (fail(tag, 0), "R8"), (fail(tag, 1 + tag % 2 * 3), "E"), again)


def read_held(tag):
    """A noted read holds its ITag back until its last byte."""
    back = (*SMALL.fill(tag, tag=tag), (read(SMALL.unit(tag), 2),
                                        "T%d" % tag))
    return (SMALL.inv(tag, tag), (drain(), "C0"),
            (inv(tag, 0x100000), "R9"), (bring(tag, PAY, 8), "P", "", PAY),
            (drain(), "C0"), (bring(tag, PAY), "L", "", PAY),
            (inv(tag, 0x100000), "R9"),
            (drain(), "C1", ic("%08X" % (1 << tag))), *back)


def read_failed(tag):
    """A noted read holds another ITag back until it fails."""
    itag = 31 - tag
    return (SMALL.inv(itag, tag), (inv(tag ^ 1, 0x100000), "D"),
            (drain(15), "R17"), (drain(), "C1", ic("%08X" % (1 << (tag ^ 1)))),
            (drain(), "C0"), (fail(tag, 4), "E"),
            (drain(), "C1", ic("%08X" % (1 << itag))),
            *SMALL.fill(tag, tag=tag), (read(SMALL.unit(tag), 2),
                                        "T%d" % tag))


READ_ALL = tuple((read(SMALL.unit(tag) + 8, 2), "T%d" % tag)
                 for tag in range(TAGS))

EVERY_READ = ("a read on every tag", SMALL.begin() + READ_ALL + (
    (read(0), "R11"),
) + tuple(step for tag in range(TAGS) for step in read_ends(tag)) + tuple(
    step for tag in range(TAGS) for step in read_held(tag)) + tuple(
    step for tag in range(TAGS) for step in read_failed(tag)) + (
    # One range for all reads; the last one holds the ITag back.
    (inv(31, 0xF800), "D"), (inv(0, 0x100000), "D"),
    (drain(), "C1", ic("00000001")),
    *((fail(tag, 1), "E") for tag in range(31)), (drain(), "C0"),
    (inv(0, 0x1F000), "D"), (drain(), "C0"), (inv(31, 0), "R9"),
    (bring(31, PAY, 8), "P", "", PAY), (drain(), "C0"),
    (bring(31, PAY), "L", "", PAY), (drain(), "C2", ic("80000001")),
) + SMALL.full() + READ_ALL + (
    # And the first one.
    (inv(5, 0xF800), "D"), (inv(31, 0xF800), "D"), (inv(0, 0x1E000), "D"),
    *((fail(tag, 1), "E") for tag in range(31, 0, -1)),
    (drain(), "C1", ic("00000001")), (drain(), "C0"),
    (bring(0, PAY, 8), "P", "", PAY), (drain(), "C0"), (fail(0, 3), "E"),
    (drain(), "C2", ic("80000020")),
) + SMALL.full() + READ_ALL + (
    *begin(), (bring(31, PAY * 2), "R7"), (bring(0, PAY * 2), "R7"),
    (drain(), "C0"), *SMALL.full(), *READ_ALL, SMALL.inv(31, 31),
    (reset(), "D"), (bring(31, PAY * 2), "R7"), (drain(), "C0"),
    (inv(31, 0), "D"), (drain(), "C1", ic("80000000"))))

# --- reads and ITags, crosswise -------------------------------------------


def rounded(stu, place, small):
    """A read in one page of a unit, an INV of another page of it."""
    size = PAGE << stu
    home = 0x5A00000000 - 0x5A00000000 % size + size
    return begin(stu) + cached(0, home, coded(1 << 44, 12 + stu) | 3) + (
        (read(home + place, 2), "T0"), (inv(9, home - PAGE), "D"),
        (inv(8, home + size), "D"), (drain(), "C2", ic("00000300")),
        (inv(31, small + home), "D"), (read(home + place), "R13"),
        (drain(), "C0"), (bring(0, PAY * 2), "L", "", PAY * 2),
        (drain(), "C1", ic("80000000")))


def crosswise(one, other):
    """Two reads, each of which holds back an ITag of its own and a common."""
    return SMALL.begin() + (
        (read(SMALL.unit(one)), "T0"), (read(SMALL.unit(other)), "T1"),
        SMALL.inv(3, one), SMALL.inv(30, other), (inv(17, 0xF800), "D"),
        (drain(), "C0"), (inv(0, 0x100000), "D"),
        (drain(), "C1", ic("00000001")),
        # The units filled and read anew: the old reads hold back as before.
        *SMALL.fill(one, tag=2), *SMALL.fill(other, tag=2),
        (read(SMALL.unit(one)), "T2"), (drain(), "C0"), (fail(0, 1), "E"),
        (drain(), "C1", ic("00000008")), (drain(), "C0"),
        (bring(1, PAY), "L", "", PAY), (drain(), "C2", ic("40020000")),
        (fail(2, 1), "E"))


CROSSWISE = ("reads that hold back several ITags", crosswise(4, 9)
             + crosswise(31, 0) + rounded(1, 0x1FF8, 0) + rounded(1, 0, PAGE)
             + rounded(3, 0x7000, 0x3000) + rounded(4, 0x20, 0x3800))

# --- second packets, and only packets off the boundary --------------------


def second(units, total, now):
    """Of so many translations so many at first; then seconds that misfit."""
    left = total - now
    word = 0x9003
    return ((ask(0x70000, units), "T0"),
            (reply(0, *[word] * now, count=8 * total), "M"),
            *((reply(0, *[word] * n, lower=0), "R8")
              for n in range(1, 9) if n != left),
            (reply(0, *[word] * left, count=8 * left + 8, lower=0), "R8"),
            (reply(0, *[word] * left, count=8 * total, lower=0), "R8"),
            (reply(0, *[word] * left, lower=0), "F"))


def every_lower(rcb):
    """A Lower Address with one bit wrong, in an only and a second packet."""
    good = rcb - 8
    steps = ()
    for bit in range(7):
        off = (8 + (good ^ 1 << bit)) % rcb > 0
        steps += ((ask(0x70000, 2), "T0"),
                  (reply(0, 0x9003, lower=good ^ 1 << bit),
                   "X" if off else "F"))
    steps += ((ask(0x70000, 2), "T0"),
              (reply(0, 0x9003, count=16, lower=good), "M"))
    return (*steps, *((reply(0, 0x9003, lower=1 << bit), "R8")
                      for bit in range(7)), (reply(0, 0x9003, lower=0), "F"))


SECONDS = ("second packets, and only ones off the boundary", begin()
           + second(4, 4, 1) + second(8, 5, 3) + second(8, 3, 1) + (
    (ask(0x70000, 2), "T0"), (reply(0, *[0x9003] * 3, lower=0), "R8"),
    (reply(0, *[0x9003] * 8, lower=8), "R8"),
    (reply(0, 0x9003, count=12, lower=4), "R8"),
    (reply(0, 0x9003, 0x9003, count=8, lower=0), "R8"),
    (bring(0, "00" * 12, lower=0), "R8"), (bring(0, "00" * 4), "R8"),
    (reply(0, 0x9003, lower=0), "X"), (reply(0, 0x9003), "R7"))
    + every_lower(64) + begin(rcb=128) + every_lower(128))

# --- ITags ----------------------------------------------------------------


def together(itags):
    """ITags drained together; each waits, and is 9 and 10, until then."""
    last = itags[-1]
    return (*((inv(itag, 0x100000), "D") for itag in itags),
            (inv(itags[0], 0), "R9"), (inv(last, 0), "R9"),
            (inv(last, 0, OTHER), "R10"), (drain(0), "R17"),
            (drain(16), "C%d" % len(itags), ic("%08X" % sum(
                1 << itag for itag in itags))), (drain(), "C0"),
            (inv(last, 0, OTHER), "R10"))


EVERY_ITAG = ("every ITag, alone and with others", begin() + tuple(
    step for itag in range(32) for step in (
        (inv(itag, 0x100000), "D"), (inv(itag, 0), "R9"),
        (inv(itag, 0, OTHER), "R10"), (inv(itag, 0, US, US + 1), "R5"),
        (drain(), "C1", ic("%08X" % (1 << itag))))) + tuple(
    step for itags in (
        (31, 0), (30, 31), (0, 1), (29, 30, 31), range(4), range(27, 32),
        range(8), range(16), range(16, 32), range(15, 32), range(30),
        range(31), range(1, 32), range(31, -1, -1), range(32))
    for step in together(tuple(itags))) + tuple(
    (inv(itag, 0x100000), "D") for itag in range(32)) + tuple(
    step for itag in range(32) for step in (
        (inv(itag, 0x100000), "R9"),
        (inv(itag, 0x100000, OTHER), "R10"))) + (
    # A reset forgets them all, and the agent.
    (reset(), "D"), (drain(), "C0"), (inv(31, 0, OTHER), "D"),
    (inv(31, 0), "R10"), (inv(30, 0), "R10"), (inv(0, 0, OTHER), "D"),
    (drain(), "C2", "32000000 01000002 00090001 80000001"),
    (reset(), "D"), *((inv(itag, 0, 0), "D") for itag in (31, 0, 7)),
    (inv(8, 0), "R10"), (inv(7, 0), "R10"), (inv(7, 0, 0x0800), "R10"),
    (drain(), "C3", "32000000 01000002 00000001 80000081"),
    (inv(9, 0, 1), "R10"), (inv(9, 0, 0xFF00), "R10")))

# --- groups ---------------------------------------------------------------


def group_roles(index):
    """A group begun, waiting, closed by 0 and by 1; 4 credits in all."""
    other = 30 - index if index < 31 else 0
    other += other == index
    return ((respond(index, 0), "R7"), (want_page(0x1000, index, 1), "D"),
            (respond(index, 0), "R7"), (respond(index, 1), "R7"),
            (want_page(0x2000, index, 2), "D"),
            (want_page(0x3000, index, 7), "D"),
            (want_page(0x4000, index, 1), "R16"),
            (want_page(0x4000, index, 5), "R16"),
            (want_page(0x4000, other, 5), "D"),
            (want_page(0x5000, other, 5), "R16"),
            (want_page(0x5000, 16, 5), "R16"),
            (respond(index, 0), "D"), (respond(index, 0), "R7"),
            (respond(other, 1), "D"), (want_page(0x6000, index, 6), "D"),
            (want_page(0x4000, index, 2), "R16"), (respond(index, 1), "D"),
            (respond(index, 1), "R7"))


def group_fails(index):
    """A group that waits, and a failure under its index."""
    code = 2 + index % 14
    return ((reset(), "D"), (pages_on(index + 1), "D"),
            (want_page(0x1000, index, 5), "D"), (respond(index, code), "D"),
            (respond(index, 0), "R7"), (want_page(0x1000, index, 5), "R15"))


OPEN_GROUPS = tuple((want_page(0x1000, index, 5 if index % 2 else 1), "D")
                    for index in range(GROUPS))

EVERY_GROUP = ("every group in every role", (
    (reset(), "D"), (pages_on(4), "D"),
) + tuple(step for index in range(GROUPS) for step in group_roles(index)) + (
    (PAGES_OFF, "D"), (pages_on(512), "D"),
) + OPEN_GROUPS + (
    (want_page(0x2000, 31, 1), "R16"), (want_page(0x2000, 30, 5), "D"),
    (PAGES_OFF, "D"), (pages_on(33), "D"),
    (respond(31, 0), "R7"), (respond(1, 0), "R7"),
) + OPEN_GROUPS + (
    (want_page(0x2000, 0, 5), "D"), (want_page(0x2000, 2, 5), "R16"),
    (respond(31, 1), "D"), (respond(0, 0), "D"),
    (want_page(0x2000, 31, 5), "D"), (want_page(0x2000, 0, 1), "D"),
    (want_page(0x2000, 0, 5), "D"), (want_page(0x2000, 2, 5), "R16"),
    # Off and on again: all are free.
    (PAGES_OFF, "D"), (pages_on(32), "D"),
) + OPEN_GROUPS + (
    (want_page(0x2000, 2, 5), "R16"), (reset(), "D"), (pages_on(34), "D"),
) + OPEN_GROUPS + (
    (want_page(0x2000, 0, 5), "D"), (want_page(0x2000, 30, 5), "D"),
    (want_page(0x2000, 2, 1), "R16"), (respond(30, 0), "D"),
    (respond(543 - 512, 0), "D"), (respond(2, 0), "R7"),
) + tuple(step for index in (*range(GROUPS), 31, 0)
          for step in group_fails(index)) + (
    # Indexes that are good in their low five or eight bits.
    (reset(), "D"), (pages_on(3), "D"), (want_page(0x1000, 31, 5), "D"),
    (want_page(0x1000, 0, 5), "D"),
    *((respond(index, code), "R7") for index in (32, 63, 256, 287, 511)
      for code in (0, 1)),
    *((want_page(0x1000, index, 5), "R12")
      for index in (32, 33, 63, 256, 257, 287, 511, 512, 65535)),
    (respond(31, 0), "D"), (respond(0, 1), "D")))

SCRIPTS = (EVERY_SLOT, EVERY_SLOT_AGAIN, FAR, ONE_BIT, HAND_ROUNDS,
           HAND_ROUNDS_AGAIN, EVERY_TAG, EVERY_READ, CROSSWISE, SECONDS,
           EVERY_ITAG, EVERY_GROUP)
