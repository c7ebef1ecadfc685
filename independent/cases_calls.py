"""Scripts of calls: the fixed ones, then long runs drawn at random.

A player drives a Function while it writes the script, so that it can aim: it
looks at the open tags and the cached units and makes packets that fit them,
or that miss by a little. Most calls are sensible; each kind of refusal has
its share. A run begins with a reset and has a mood, which says how often each
act is drawn.
"""

import masks
import packets
import scripts_attr
import scripts_calls
import scripts_order
import scripts_tables
from calls import CALLS, Script, parse, record, run
from cases_reading import forbidden, mutated
from cases_sizes import coded
from function import END, OFF, PAGE, STOPPED, TAGS, OpenRead, OpenTr
from samples import FORMS, flip, noisy, poke, resized, with_length

FIXED = (scripts_calls.SCRIPTS + scripts_tables.SCRIPTS
         + scripts_order.SCRIPTS + scripts_attr.SCRIPTS)
DRAWN = 4200                    # calls drawn at random, at least
SHOW_EVERY = 40
STUS = (0, 0, 0, 0, 1, 1, 2, 3, 9, 19, 20, 30, 31)
BAD_STUS = (32, 32, 33, 63, 64, 255)
BAD_RCBS = (0, 1, 32, 63, 65, 96, 127, 129, 192, 255)
AGENTS = (0x0008, 0x0000, 0xFFFF, 0x0100)
# Status of a completion without data; for a TR the harmless one more often.
STATUSES = (0, 0, 1, 2, 3, 4, 5, 6, 7)
NO_SIZE = packets.ALL_PAGE_BITS | 1 << 11
UNNAMED = 0x3F8                 # bits 9:3 of a translation

MOODS = {name: tuple((part.split(":")[0], int(part.split(":")[1]))
                     for part in text.split())
         for name, text in (
    ("caching", "ask:24 reply:44 read:6 write:12 data:8 inv:2 drain:1 "
                "status:1 swap:1 junk:2 alien:1"),
    ("filling", "ask:28 reply:60 read:5 write:9 data:2 inv:1 torn:1"),
    ("hoarding", "ask:40 read:30 write:8 reply:9 data:2 inv:4 drain:2 "
                 "status:1 junk:2"),
    ("invalidating", "ask:14 reply:22 read:20 write:3 data:16 inv:20 "
                     "drain:14 status:2 stray:1 alien:1 swap:1"),
    ("paging", "on:6 off:3 page:50 response:22 junk:2 alien:3 ask:3 "
               "reply:4 reset:1 failure:2"),
    ("failing", "ask:24 reply:18 read:12 write:6 data:6 status:20 stray:10 "
                "alien:8 junk:16 enable:8 inv:3 reset:4"),
    ("switching", "ask:24 reply:30 read:8 write:4 data:6 swap:6 disable:2 "
                  "enable:8 inv:6 drain:3 status:3"),
    ("anything", "ask:16 reply:22 read:12 write:16 data:12 inv:8 drain:5 "
                 "status:4 stray:2 alien:2 junk:6 on:2 off:2 page:8 "
                 "response:4 failure:1 swap:2 enable:2 disable:1 reset:1"),
    ("tearing", "ask:20 reply:30 read:8 write:6 data:10 inv:6 torn:20 "
                "junk:10 enable:6 drain:3 on:1 page:4 response:2"),
)}


class Player:
    """Writes the script; every call goes through the Function."""

    def __init__(self, rng):
        self.rng = rng
        self.script = Script()
        self.out = []           # (record, answer line)
        self.calls = 0
        self.home = 0           # the lowest address of the playground
        self.agent = AGENTS[0]
        self.greedy = False     # asks for as much as it may

    @property
    def function(self):
        """The Function in its present state."""
        return self.script.function

    # --- giving calls -----------------------------------------------------

    def give(self, data, text=None):
        """One record into the script; its answer."""
        text = text or self.script.run(data)
        self.out.append((data, text))
        if data[0] != CALLS["show"][0]:
            self.calls += 1
            if self.calls % SHOW_EVERY == 0:
                self.give(record("show"))
        return text.split("\t")[0]

    def call(self, name, *values, rest=b""):
        """One call."""
        return self.give(record(name, *values, rest=rest))

    def send(self, name, *values, rest=b""):
        """A call that may send, with a room that fits or nearly does."""
        data = record(name, packets.LONGEST, *values, rest=rest)
        got = run(self.function.copy(), *parse(data))
        due = 12 if isinstance(got, int) else len(got.packet)
        short = self.rng.pick((0, 1, self.rng.below(due + 1)))
        room = self.rng.pick((due,) * 6 + (due + 1, due + 4, 144, 200, 200,
                                           max(due - 1, 0), short))
        return self.call(name, room, *values, rest=rest)

    def receive(self, fields, payload=b""):
        """A packet of these fields, often with noise in Attr and ignored bits.

        The Function must heed neither.
        """
        packet = packets.write(fields, payload, packets.LONGEST)
        form = {packets.Cpl: "CPL", packets.CplData: "CPLD",
                packets.Inv: "INV", packets.Prs: "PRS"}[type(fields)]
        if self.rng.bits(1):
            packet = masks.with_noise(form, packet,
                                      self.rng.data(len(packet)))
        return self.call("receive", rest=packet)

    def fixed(self):
        """The fixed scripts, each step checked."""
        for title, steps in FIXED:
            for step in steps:
                self.give(step[0], scripts_calls.check(self.script, title,
                                                       step))
            self.give(record("show"))

    # --- choosing ---------------------------------------------------------

    def often(self, percent):
        """True in so many of a hundred cases."""
        return self.rng.below(100) < percent

    def open(self, kind):
        """The open tags of a kind."""
        return [tag for tag, request in enumerate(self.function.tags)
                if isinstance(request, kind)]

    def begin(self):
        """A reset that is accepted, and a playground for what follows."""
        rng = self.rng
        ident = rng.pick((0x0100, 0, 0xFFFF, rng.bits(16)))
        self.call("reset", ident, rng.pick(STUS), rng.pick((64, 128)))
        self.agent = rng.pick(AGENTS)
        unit = self.function.unit_size()
        home = rng.pick((0, (1 << 32) - 20 * unit, (1 << 32) - 20 * unit,
                         END - 44 * unit, END - 44 * unit, rng.bits(32),
                         rng.bits(64), rng.bits(48)))
        home = max(0, min(home, END - 44 * unit))
        self.home = self.function.unit_of(home)

    def unit(self):
        """A unit of the playground, the lower ones more often."""
        rng = self.rng
        span = rng.pick((4, 12, 44, 44))
        return self.home + rng.below(span) * self.function.unit_size()

    def within(self, unit):
        """An address in a unit."""
        size = self.function.unit_size()
        return unit + self.rng.pick((0, 0, size - 1, size - 4, size - PAGE,
                                     self.rng.below(size)))

    def identity(self):
        """Our ID, as every packet that is ours carries it."""
        return self.function.id

    # --- ask and access ---------------------------------------------------

    def ask(self):
        """Ask for units."""
        rng, most = self.rng, self.function.rcb // 8
        units = rng.pick((1, 1, 2, 2, 3, 4, most, most, most - 1,
                          rng.between(1, most)))
        address = self.within(self.unit())
        if self.greedy and self.often(60):
            units = most
        if self.often(8):
            units = rng.pick((0, most + 1, most + 2, 17, 24, 255, 256, 257,
                              256 + most, 0x8001, 0xFFFF))
        elif self.often(6):
            # About the end: the range just fits or passes it.
            size = self.function.unit_size()
            address = self.within(END - size * rng.between(
                max(units - 2, 1), units + 1))
        self.send("ask", address, units, rng.bits(1))

    def warm(self):
        """Some units cached, some tags open."""
        rng = self.rng
        for _ in range(rng.pick((0, 4, 8, 12))):
            self.ask()
            self.reply()
        for _ in range(rng.pick((0, 0, 4, 10))):
            self.ask()
        for _ in range(rng.pick((0, 0, 4, 10))):
            self.read()

    def access_at(self, words):
        """An address for an access, in a page of a cached unit mostly."""
        rng = self.rng
        held = [entry.unit for entry in self.function.slots if entry]
        unit = rng.pick(held) if held and self.often(85) else self.unit()
        size = self.function.unit_size()
        page = unit + PAGE * rng.pick((0, size // PAGE - 1,
                                       rng.below(size // PAGE)))
        room = max(PAGE - 4 * words, 0)
        return page + rng.pick((0, 0, 4, room, room, 4 * rng.below(
            room // 4 + 1)))

    def words(self):
        """How many DWORDs to read or write."""
        return self.rng.pick((1, 1, 1, 2, 2, 3, 4, 5, 8, 16, 31, 32))

    def bad_access(self, words):
        """(address, words) of an access that is 12."""
        rng, address = self.rng, self.access_at(words)
        how = rng.below(4)
        if how == 0:
            return address, rng.pick((0, 33, 34, 256, 257, 260, 0xFFFF))
        if how == 1:
            return address ^ rng.between(1, 3), words
        # Some of its DWORDs past the page.
        over = rng.pick((1, rng.between(1, words)))
        address -= address % PAGE
        return address + PAGE - 4 * words + 4 * over, words

    def idle(self):
        """Is the ATC empty? Then mostly fill it, and leave the access."""
        if any(self.function.slots) or self.often(12):
            return False
        if not self.function.enabled and self.often(50):
            self.enable()
        self.reply()
        return True

    def read(self):
        """Read."""
        if self.idle():
            return
        words = self.words()
        address, payload = self.access_at(words), b""
        if self.often(9):
            address, words = self.bad_access(words)
        elif self.often(3):
            payload = self.rng.data(self.rng.pick((1, 4, 4 * words)))
        if address < END:
            self.send("read", address, words, rest=payload)

    def write(self):
        """Write."""
        if self.idle():
            return
        words = self.rng.pick((1, 1, 2, self.words()))
        address, payload = self.access_at(words), self.rng.data(4 * words)
        if self.often(8):
            payload = payload[:-4] + b"\xA5" * 4
        if self.often(14):
            address, words = self.bad_access(words)
            payload = self.rng.pick((payload, bytes(4 * words % 240)))
        elif self.often(7):
            payload = self.rng.pick((payload[:-1], payload[:-4], b"",
                                     payload + b"\0", payload + bytes(4)))
        if address < END:
            self.send("write", address, words, rest=payload)

    # --- completions ------------------------------------------------------

    def word(self, log2):
        """A translation of this size."""
        rng = self.rng
        base = rng.pick((rng.bits(32), rng.bits(32), rng.bits(64), 0,
                         END - 1, rng.bits(40)))
        base = base >> log2 << log2
        rights = rng.pick((3, 3, 3, 3, 3, 1, 2, 0, 0))
        u = 4 if self.often(18) else 0
        n = rng.bits(1) << 10
        return (coded(base, log2) | rights | u | n
                | rng.pick((0, UNNAMED & rng.bits(12))))

    def log2(self):
        """log2 of a size, mostly one that fits."""
        rng, unit = self.rng, 12 + self.function.stu
        choice = rng.below(20)
        if choice < 11:
            return unit
        if choice < 16:
            return min(unit + rng.between(1, 4), 64)
        if choice < 18:
            return rng.pick((rng.between(unit, 64), 63, 64, 64))
        if choice < 19 and unit > 12:
            return rng.between(12, unit - 1)
        return unit

    def fitting(self, request, log2):
        """How many regions of a size begin in a TR's range."""
        size = 1 << log2
        start = request.address // size * size
        return -((start - self.function.range_end(request)) // size)

    def lower(self, count):
        """A Lower Address that ends so many bytes at the RCB."""
        return self.rng.pick([lower for lower in range(128)
                              if (count + lower) % self.function.rcb == 0])

    def data_for(self, tag, words, count, lower):
        """Receive translations."""
        payload = b"".join(word.to_bytes(8, "big") for word in words)
        self.completion(tag, payload, count, lower)

    def completion(self, tag, payload, count, lower):
        """Receive a completion with data."""
        rng = self.rng
        self.receive(packets.CplData(
            rng.pick((0, 0, rng.below(8))), rng.pick((self.agent,
                                                      rng.bits(16))),
            len(payload) // 4, count & 0xFFF, self.identity(), tag, lower),
            payload)

    def reply(self):
        """Translations for an open TR."""
        tags = self.open(OpenTr)
        if not tags:
            return self.ask()
        tag = self.rng.pick(tags)
        request = self.function.tags[tag]
        if request.due:
            return self.second(tag, request)
        log2 = self.log2()
        fits = self.fitting(request, log2)
        total = self.rng.pick((fits, fits, self.rng.between(1, fits)))
        total = min(total, request.units)
        if self.often(4):
            total = min(fits + 1, 16)
        now = total
        if total > 1 and self.often(45):
            now = self.rng.between(1, total - 1)
        elif request.units > total and self.often(4):
            total += 1          # a second that cannot fit
        words = [self.word(log2) for _ in range(now)]
        if self.often(16):
            return self.bad_reply(tag, request, words, 8 * total)
        return self.data_for(tag, words, 8 * total, self.lower(8 * now))

    def bad_reply(self, tag, request, words, count):
        """An only or a first packet that misses by a little."""
        rng = self.rng
        here = 8 * len(words)
        how = rng.below(9)
        if how == 0:
            payload = b"".join(w.to_bytes(8, "big") for w in words)
            payload = rng.pick((payload[4:], payload + bytes(4)))[:124]
            here = len(payload)
            if here == 0:
                return None
            return self.completion(tag, payload, rng.pick(
                (here, count, 8 * request.units)), -here % self.function.rcb)
        if how == 1:
            return self.data_for(tag, words, count + rng.between(1, 7),
                                 self.lower(here))
        if how == 2:
            return self.data_for(tag, words, here - rng.pick((4, 8)),
                                 self.lower(here))
        if how == 3:
            return self.data_for(tag, words, 8 * request.units
                                 + rng.pick((8, 8, 64, 2048)),
                                 self.lower(here))
        if how == 4:
            more = words + [words[-1]] * (request.units + 1 - len(words))
            more = more[:16]
            return self.data_for(tag, more, 8 * len(more),
                                 self.lower(8 * len(more)))
        if how in (5, 6):
            # Off the RCB; a wrong entry is not looked at in an only packet.
            lower = rng.pick([v for v in range(128)
                              if (here + v) % self.function.rcb])
            if self.often(30):
                words[rng.below(len(words))] = NO_SIZE
            return self.data_for(tag, words, count, lower)
        at = rng.below(len(words))
        if how == 7:
            words[at] = NO_SIZE | rng.bits(11)
        else:
            words[at] = self.word(self.other_log2(words[at]))
        return self.data_for(tag, words, count, self.lower(here))

    def other_log2(self, word):
        """Another size than a translation has."""
        _, log2 = packets.size(word)
        return self.rng.pick([v for v in (log2 - 1, log2 + 1, 64)
                              if 12 <= v <= 64 and v != log2])

    def second(self, tag, request):
        """The second of two packets."""
        rng = self.rng
        words = [self.word(request.log2) for _ in range(request.due // 8)]
        count, lower = request.due, 0
        if self.often(28):
            how = rng.below(7)
            at = rng.below(len(words))
            if how == 0:
                lower = rng.pick((64, self.lower(count), rng.between(1, 127)))
            elif how == 1:
                count += rng.pick((8, -8, 4, -4, 64))
            elif how == 2:
                words = words[1:] or words * 2
            elif how == 3:
                words = (words + words)[:16]
                count = 8 * len(words)
            elif how == 4:
                words[at] = NO_SIZE | 3
            elif how == 5:
                words[at] = self.word(self.other_log2(words[at]))
            else:
                words = [self.word(self.other_log2(words[0]))
                         for _ in words]
        return self.data_for(tag, words, count, lower)

    def data(self):
        """Data for an open read."""
        tags = self.open(OpenRead)
        if not tags:
            return self.read()
        rng, tag = self.rng, self.rng.pick(tags)
        due = self.function.tags[tag].due
        count = due
        size = 4 * rng.between(1, due // 4) if self.often(45) else due
        if self.often(12):
            how = rng.below(3)
            if how == 0:
                count = rng.pick((due + 4, due - 4, 0, due + 1, due + 128))
            elif how == 1:
                size = min(due + rng.pick((4, 8, 64)), 128)
            else:
                count = size = min(due + 4, 128)
        return self.completion(tag, rng.data(size), count, rng.bits(7))

    def status(self):
        """A completion without data for an open tag."""
        rng = self.rng
        kind = rng.pick((OpenTr, OpenRead))
        tags = self.open(kind)
        if self.often(40):
            begun = [tag for tag in tags if self.begun(tag)]
            tags = begun or tags
        if not tags:
            return self.stray()
        status = rng.pick(STATUSES)
        if self.often(30):
            status = 4
        packet = bytearray(packets.write(packets.Cpl(
            rng.below(8), rng.bits(16), 0, rng.bits(12), self.identity(),
            rng.pick(tags), rng.bits(7)), b"", 12))
        packet[6] |= status << 5
        return self.call("receive", rest=bytes(packet))

    def begun(self, tag):
        """Has a part of what this open tag is due come?"""
        request = self.function.tags[tag]
        if isinstance(request, OpenTr):
            return request.due > 0
        return request.due < request.asked

    def stray(self):
        """A completion for a tag that is not open."""
        rng = self.rng
        tags = [tag for tag in range(TAGS) if self.function.tags[tag] is None]
        tag = rng.pick(tags) if tags and self.often(60) else rng.between(
            TAGS, 255)
        if self.often(50):
            return self.receive(packets.Cpl(
                0, self.agent, rng.pick((0, 1, 3, 4, 5)), 4, self.identity(),
                tag, 0))
        words = [self.word(12) for _ in range(rng.between(1, 2))]
        return self.data_for(tag, words, 8 * len(words),
                             self.lower(8 * len(words)))

    # --- invalidation -----------------------------------------------------

    def inv(self):
        """An Invalidate Request for a part of the playground mostly."""
        rng, unit = self.rng, 12 + self.function.stu
        log2 = rng.pick((unit, unit, unit, unit, 12, rng.between(12, unit),
                         min(unit + rng.below(4), 64)))
        if self.often(7):
            log2 = rng.pick((rng.between(12, 64), rng.between(12, 64), 64))
        near = [request.address for request in self.function.tags if request]
        address = self.within(self.unit())
        if near and self.often(60):
            address = min(rng.pick(near) + rng.pick((0, 0, 1, 2))
                          * self.function.unit_size(), END - 1)
        word = coded(address >> log2 << log2, log2)
        itag = rng.pick((rng.below(32), rng.below(32), 0, 31))
        if self.function.waiting and self.often(8):
            itag = rng.pick(sorted(self.function.waiting))
        sender = self.agent
        if self.function.agent is not None and self.often(8):
            sender = rng.pick((self.agent ^ 1, self.agent ^ 0x0800,
                               rng.bits(16)))
        self.receive(packets.Inv(
            rng.below(8), sender, itag, self.identity(),
            word & packets.ALL_PAGE_BITS, word >> 11 & 1))

    def drain(self):
        """Drain."""
        self.send("drain")

    # --- pages ------------------------------------------------------------

    def on(self):
        """Switch the page interface on."""
        self.call("pages on", self.rng.pick(
            (1, 2, 2, 3, 5, 7, 512, 0, 513, 0xFFFF, 0x0201)))

    def off(self):
        """Switch it off."""
        self.call("pages off")

    def page(self):
        """A page request."""
        rng = self.rng
        if self.function.pages == OFF and self.often(60):
            return self.on()
        if self.function.pages == STOPPED and self.often(40):
            return self.begin()
        address = self.unit() // PAGE * PAGE
        index = rng.pick((0, 1, 2, 3, 31, rng.below(32)))
        flags = rng.pick((1, 2, 3, 3, 5, 6, 7, 7))
        waits = [i for i, group in enumerate(self.function.groups)
                 if group.waits]
        if waits and self.often(15):
            index = rng.pick(waits)
        if self.often(18):
            how = rng.below(3)
            if how == 0:
                flags = rng.pick((0, 4))
            elif how == 1:
                address += rng.pick((1, 4, 8, 2048, 4095, rng.below(4096)))
            else:
                index = rng.pick((32, 32, 63, 256, 257, 511, 512, 0xFFFF))
        return self.send("page request", address, index, flags)

    def response(self, code=None):
        """A PRG Response, mostly to a group that waits."""
        rng, function = self.rng, self.function
        waits = [i for i, group in enumerate(function.groups) if group.waits]
        begun = [i for i, group in enumerate(function.groups)
                 if group.sent and not group.waits]
        index = rng.pick(waits or (0, 1, 2, 3))
        if begun and self.often(12):
            index = rng.pick(begun)
        elif self.often(25):
            index = rng.pick((rng.below(32), rng.below(512), 32, 33, 288,
                              511))
        self.receive(packets.Prs(
            0, rng.pick((self.agent, rng.bits(16))), self.identity(),
            rng.pick((0, 1)) if code is None else code, index))

    def failure(self):
        """A response that stops the interface."""
        self.response(self.rng.pick((2, 3, 8, 14, 15, 15)))

    # --- switches ---------------------------------------------------------

    def enable(self):
        """Enable."""
        self.call("enable")

    def disable(self):
        """Disable."""
        self.call("disable")

    def swap(self):
        """Disable, something between, and enable."""
        self.disable()
        for _ in range(self.rng.below(4)):
            self.rng.pick((self.reply, self.reply, self.data, self.inv,
                           self.drain, self.ask, self.read, self.write,
                           self.status))()
        if self.often(80):
            self.enable()

    def reset(self):
        """A reset, mostly refused."""
        rng = self.rng
        if self.often(25):
            self.begin()
            return self.enable()
        stu, rcb = rng.pick(STUS), rng.pick((64, 128))
        if self.often(50):
            stu = rng.pick(BAD_STUS)
        else:
            rcb = rng.pick(BAD_RCBS)
        return self.call("reset", rng.bits(16), stu, rcb)

    # --- packets that are not for us, or broken ---------------------------

    def good_packet(self):
        """A packet that fits: the record of one that an act would give."""
        rng = self.rng
        other = Player(rng)
        other.script.function = self.function.copy()
        other.home, other.agent = self.home, self.agent
        for _ in range(9):
            act = rng.pick((other.reply, other.data, other.inv, other.inv,
                            other.response, other.status, other.stray))
            act()
            for data, _ in other.out:
                if data[0] == CALLS["receive"][0] and len(data) > 12:
                    return data[1:]
        return noisy(rng, rng.pick(FORMS))

    def alien(self):
        """A packet that fits but for its Requester or Device ID."""
        packet = self.good_packet()
        bit = 8 * self.rng.pick((8, 9)) + self.rng.below(8)
        self.call("receive", rest=flip(packet, bit))

    def torn(self):
        """A packet that fits, a little changed."""
        rng, packet = self.rng, self.good_packet()
        how = rng.below(8)
        if how < 3:
            packet = flip(packet, rng.below(8 * min(len(packet), 24)))
        elif how == 3:
            packet = poke(packet, 2, 0xC0, rng.pick((0x40, 0x80, 0xC0)))
        elif how == 4:
            packet = packet[:max(len(packet) - rng.pick((1, 2, 4, 8)), 0)]
        elif how == 5:
            packet = packet + rng.data(rng.pick((1, 2, 4, 8)))
        elif how == 6:
            packet = with_length(packet, rng.pick((0, 1, 2, 3, 4, 32, 33)))
        else:
            packet = self.forbidden(packet)
        self.call("receive", rest=packet[:255])

    def forbidden(self, packet):
        """The packet with a value that number 4 forbids."""
        rng = self.rng
        if packet[0] == 0x4A:
            if self.often(30):
                return with_length(resized(rng, packet, 144), 33)
            return poke(packet, 6, 0xE0, rng.between(1, 7) << 5)
        if packet[0] == 0x0A:
            return poke(packet, 6, 0xE0, 0x40)
        if packet[0] == 0x72:
            return packet[:16] + NO_SIZE.to_bytes(8, "big")
        return poke(packet, 1, 0x70, rng.between(1, 7) << 4)

    def junk(self):
        """Any packet: of any kind, broken, too long, or no packet at all."""
        rng = self.rng
        how = rng.below(10)
        if how < 3:
            return self.torn()
        if how < 5:
            packet = noisy(rng, rng.pick(FORMS))
            if len(packet) > 9:
                ident = self.identity()
                packet = poke(packet, 8, 0xFF, ident >> 8)
                packet = poke(packet, 9, 0xFF, ident & 0xFF)
        elif how < 6:
            form = rng.pick(FORMS)
            packet = rng.pick(forbidden(rng, form) + [
                poke(noisy(rng, form), 2, 0xC0, bits)
                for bits in (0x40, 0x80)])
        elif how < 8:
            packet = mutated(rng)[1]
        elif how < 9:
            packet = rng.data(rng.pick((0, 0, 1, 11, 12, 16, 24)))
        else:
            packet = resized(rng, rng.pick((self.good_packet(),
                                            noisy(rng, rng.pick(FORMS)))),
                             rng.pick((11, 143, 144, 145, 146, 148, 255)))
        return self.call("receive", rest=packet[:255])


def draw(rng, mood):
    """The name of an act."""
    total = sum(weight for _, weight in mood)
    left = rng.below(total)
    for name, weight in mood:
        if left < weight:
            return name
        left -= weight
    raise AssertionError("weights")


def play(player, name):
    """One run."""
    mood = MOODS[name]
    player.greedy = name == "filling"
    player.begin()
    if player.often(90):
        player.enable()
    if name not in ("paging", "failing"):
        player.warm()
    for _ in range(player.rng.between(60, 140)):
        if not player.function.enabled and player.often(12):
            player.enable()
        getattr(player, draw(player.rng, mood))()


def cases(rng):
    """All of them: (line, answer line)."""
    player = Player(rng)
    player.fixed()
    names = tuple(MOODS)
    turn = 0
    fixed = player.calls
    while player.calls < fixed + DRAWN:
        play(player, names[turn % len(names)])
        turn += 1
    player.give(record("show"))
    return lines_of(player)


def long_run():
    """The one run that is a file of its own: (line, answer line)."""
    player = Player(None)
    title, steps = scripts_tables.LONGEST_RUN
    for step in steps:
        player.out.append((step[0], scripts_calls.check(player.script, title,
                                                        step)))
    player.out.append((record("show"), player.script.run(record("show"))))
    return lines_of(player)


def lines_of(player):
    """The script: (line, answer line)."""
    return [(data.hex().upper().encode("ascii"), text)
            for data, text in player.out]
