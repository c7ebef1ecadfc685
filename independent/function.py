"""The Function: its tables and its calls.

Implements "The Function's tables", "What unrefused calls answer" and, of "The
seventeen numbers", those of the calls with their order (document 01). It
stands on packets.py, which gives the numbers of reading and lays out what is
sent.

Attr, which every packet has since request a), is no part of the state, and no
call looks at it. No packet that is sent has any of its bits set: they are zero
where a record is made without them.

A call gives an Outcome, or its refusal as a plain int. A refused call changes
nothing. What the tables hold are frozen records: a table changes only where
a place in it is given another record.
"""

from dataclasses import dataclass, replace

import packets

SLOTS = TAGS = GROUPS = 32
PAGE = 4096
END = 1 << 64                   # one past the last address
MOST_WORDS = 32                 # of one access
MOST_CREDITS = 512
HAND_VALUES = 1 << 32
OFF, ON, STOPPED = 0, 1, 2      # the page interface


@dataclass(frozen=True)
class Outcome:
    """What an unrefused call gives; packet is empty if nothing was sent."""
    answer: str         # the word of document 01; "tag" and "count" as well
    number: int = 0     # of a "tag" or a "count"
    packet: bytes = b""
    payload: bytes = b""


DONE = Outcome("done")
DISCARDED = Outcome("discarded")


@dataclass(frozen=True)
class Entry:
    """One slot of the ATC in use: one unit."""
    unit: int
    translated: int     # 0 if u
    r: int
    w: int
    n: int
    u: int


@dataclass(frozen=True)
class OpenTr:
    """An open Translation Request; log2, came, due tell of a first packet."""
    address: int        # as asked
    units: int
    stale: bool = False
    log2: int = 0       # of the size of its translations
    came: int = 0       # translations
    due: int = 0        # bytes


@dataclass(frozen=True)
class OpenRead:
    """An open memory read."""
    address: int        # as asked, not the one sent
    asked: int          # bytes
    due: int            # bytes
    translated: int     # 1 if sent with AT 10
    itags: frozenset = frozenset()      # those that wait for this read


@dataclass(frozen=True)
class Group:
    """A page request group."""
    sent: int = 0       # requests not yet answered
    waits: bool = False


def overlap(low, high, other_low, other_high):
    """Have two ranges, each without its end, an address in common?"""
    return low < other_high and other_low < high


class Function:
    """One Function; a fresh one has ID 0, the smallest unit, RCB 64."""

    def __init__(self):
        self._start(0, 0, 64)

    def _start(self, ident, stu, rcb):
        """What a reset makes of it."""
        self.id = ident
        self.stu = stu
        self.rcb = rcb
        self.enabled = False
        self.agent = None
        self.hand = 0
        self.slots = [None] * SLOTS
        self.tags = [None] * TAGS
        self.waiting = frozenset()      # ITags
        self._close_pages(OFF)

    def _close_pages(self, state):
        """Close all groups; the state is OFF or STOPPED from now on."""
        self.pages = state
        self.allocation = 0
        self.credits = 0
        self.groups = [Group()] * GROUPS

    def copy(self):
        """Another Function in the same state."""
        other = Function()
        for name, value in vars(self).items():
            setattr(other, name,
                    list(value) if isinstance(value, list) else value)
        return other

    # --- reset, enable, disable -------------------------------------------

    def reset(self, ident, stu, rcb):
        """Fix ID, STU and RCB and start anew; or 12."""
        if not 0 <= ident < 1 << 16:
            return 12
        if not 0 <= stu <= 31:
            return 12
        if rcb not in (64, 128):
            return 12
        self._start(ident, stu, rcb)
        return DONE

    def enable(self):
        """Set E; if it was clear, empty the ATC and make all TRs stale."""
        if not self.enabled:
            self.enabled = True
            self.slots = [None] * SLOTS
            for tag, request in enumerate(self.tags):
                if isinstance(request, OpenTr):
                    self.tags[tag] = replace(request, stale=True)
        return DONE

    def disable(self):
        """Clear E; nothing else changes."""
        self.enabled = False
        return DONE

    # --- small helps ------------------------------------------------------

    def unit_size(self):
        """The unit in bytes."""
        return PAGE * 2 ** self.stu

    def unit_of(self, address):
        """The address of the unit that holds an address."""
        return address - address % self.unit_size()

    def units_of(self, request):
        """The units of a TR's range, ascending."""
        first = self.unit_of(request.address)
        return [first + i * self.unit_size() for i in range(request.units)]

    def range_end(self, request):
        """One past the last address of a TR's range."""
        return self.units_of(request)[-1] + self.unit_size()

    def free_tag(self):
        """The lowest free tag, or None."""
        for tag in range(TAGS):
            if self.tags[tag] is None:
                return tag
        return None

    def slot_of(self, unit):
        """The slot that holds a unit, or None."""
        for slot in range(SLOTS):
            entry = self.slots[slot]
            if entry is not None and entry.unit == unit:
                return slot
        return None

    @staticmethod
    def _packet(fields, payload, room):
        """The packet to send, or 17; these fields are always good."""
        packet = packets.write(fields, payload, room)
        if packet in (12, 4):
            raise AssertionError("not a packet: %r" % (fields,))
        return packet

    # --- ask --------------------------------------------------------------

    def ask(self, address, units, no_write, room):
        """Send a Translation Request: its tag; or 6, 12, 11, 17."""
        if not self.enabled:
            return 6
        if not 1 <= units <= self.rcb // 8:
            return 12
        request = OpenTr(address, units)
        if self.range_end(request) > END:
            return 12
        tag = self.free_tag()
        if tag is None:
            return 11
        fields = packets.Tr(tc=0, sender=self.id, tag=tag, length=2 * units,
                            address=address - address % PAGE,
                            no_write=no_write)
        packet = self._packet(fields, b"", room)
        if packet == 17:
            return 17
        self.tags[tag] = request
        return Outcome("tag", tag, packet)

    # --- access -----------------------------------------------------------

    def read(self, address, words, payload, room):
        """Send a memory read: its tag; or 6, 12, 13, 14, 11, 17."""
        entry = self._allowed(address, words, payload, 0)
        if isinstance(entry, int):
            return entry
        if not entry.r:
            return 14
        tag = self.free_tag()
        if tag is None:
            return 11
        sent, translated = self._sent(entry, address)
        fields = packets.MemRead(tc=0, sender=self.id, tag=tag, length=words,
                                 address=sent, translated=translated)
        packet = self._packet(fields, b"", room)
        if packet == 17:
            return 17
        self.tags[tag] = OpenRead(address, 4 * words, 4 * words, translated)
        return Outcome("tag", tag, packet)

    def write(self, address, words, payload, room):
        """Send a memory write; or 6, 12, 13, 14, 17."""
        entry = self._allowed(address, words, payload, 4 * words)
        if isinstance(entry, int):
            return entry
        if not entry.w:
            return 14
        sent, translated = self._sent(entry, address)
        fields = packets.MemWrite(tc=0, sender=self.id, length=words,
                                  address=sent, translated=translated)
        packet = self._packet(fields, payload, room)
        if packet == 17:
            return 17
        return Outcome("done", packet=packet)

    def _allowed(self, address, words, payload, payload_due):
        """The entry for an access; or 6, 12, 13."""
        if not self.enabled:
            return 6
        if not 1 <= words <= MOST_WORDS:
            return 12
        if address % 4 != 0:
            return 12
        if address % PAGE + 4 * words > PAGE:
            return 12
        if len(payload) != payload_due:
            return 12
        slot = self.slot_of(self.unit_of(address))
        if slot is None:
            return 13
        return self.slots[slot]

    def _sent(self, entry, address):
        """The address to send, and 1 for AT 10 or 0 for AT 00."""
        if entry.u:
            return address, 0
        return entry.translated + (address - entry.unit), 1

    # --- receive ----------------------------------------------------------

    def receive(self, packet):
        """Take a packet in; or 1 to 4, 2 (kind), 5, 7 and 8, 10 and 9, 7."""
        fields = packets.read(packet)
        if isinstance(fields, int):
            return fields
        if isinstance(fields, (packets.Cpl, packets.CplData)):
            if fields.requester != self.id:
                return 5
            return self._completion(fields, packets.payload_of(fields, packet))
        if isinstance(fields, packets.Inv):
            if fields.device != self.id:
                return 5
            return self._invalidate(fields)
        if isinstance(fields, packets.Prs):
            if fields.device != self.id:
                return 5
            return self._response(fields)
        return 2

    def _completion(self, fields, payload):
        """A completion that is ours; or 7, 8."""
        if fields.tag >= TAGS or self.tags[fields.tag] is None:
            return 7
        request = self.tags[fields.tag]
        if isinstance(fields, packets.Cpl):
            if fields.status == 0:
                return 8
            self.tags[fields.tag] = None
            if isinstance(request, OpenRead):
                return Outcome("read failed")
            if fields.status == 4:
                return Outcome("aborted")
            self.enabled = False
            return Outcome("switched off")
        if isinstance(request, OpenRead):
            return self._read_data(fields, request, payload)
        return self._tr_data(fields, request, payload)

    # --- completion for a read, with data ---------------------------------

    def _read_data(self, fields, request, payload):
        """Hand back a part of what was read; or 8."""
        if fields.byte_count != request.due:
            return 8
        if len(payload) > request.due:
            return 8
        left = request.due - len(payload)
        if left == 0:
            self.tags[fields.tag] = None
            return Outcome("payload, last", payload=payload)
        self.tags[fields.tag] = replace(request, due=left)
        return Outcome("payload, more", payload=payload)

    # --- completion for a TR, with data -----------------------------------

    def _tr_data(self, fields, request, payload):
        """Translations; or 8."""
        if len(payload) % 8 != 0:
            return 8
        if request.due:
            # The second of two.
            if not fields.byte_count == len(payload) == request.due:
                return 8
            if fields.lower != 0:
                return 8
        else:
            if fields.byte_count % 8 != 0:
                return 8
            if not len(payload) <= fields.byte_count <= 8 * request.units:
                return 8
            if (len(payload) + fields.lower) % self.rcb != 0:
                if fields.byte_count > len(payload):
                    return 8
                # The last of a sequence that has no first.
                self.tags[fields.tag] = None
                return DISCARDED
        words = [int.from_bytes(payload[at:at + 8], "big")
                 for at in range(0, len(payload), 8)]
        log2 = self._common_size(words, request)
        if log2 is None or not self._regions_fit(request, log2, len(words)):
            return 8
        left = fields.byte_count - len(payload)
        if left:
            self.tags[fields.tag] = replace(request, log2=log2,
                                            came=len(words), due=left)
        else:
            self.tags[fields.tag] = None
        if request.stale or not self.enabled:
            return DISCARDED
        self._apply(request, log2, words)
        return Outcome("more" if left else "filled")

    def _common_size(self, words, request):
        """log2 of the one size of all translations; None if they misfit."""
        sizes = [packets.size(word) for word in words]
        if None in sizes:
            return None
        all_log2 = [log2 for _, log2 in sizes]
        if request.came:
            all_log2.append(request.log2)
        if min(all_log2) != max(all_log2):
            return None
        if 2 ** all_log2[0] < self.unit_size():
            return None
        return all_log2[0]

    def _regions_fit(self, request, log2, count):
        """Do the next count regions all begin inside what was asked for?"""
        for k in range(request.came, request.came + count):
            start = self._region_0(request, log2) + k * 2 ** log2
            if start >= self.range_end(request):
                return False
        return True

    @staticmethod
    def _region_0(request, log2):
        """Where the region of this size that holds the asked address is."""
        return request.address - request.address % 2 ** log2

    def _apply(self, request, log2, words):
        """Give the ATC what these words say of the units they cover."""
        region_0 = self._region_0(request, log2)
        for unit in self.units_of(request):
            k, offset = divmod(unit - region_0, 2 ** log2)
            if not request.came <= k < request.came + len(words):
                continue
            word = words[k - request.came]
            r, w, u, n = (word & 1, word >> 1 & 1, word >> 2 & 1,
                          word >> 10 & 1)
            if r or w:
                base, _ = packets.size(word)
                translated = 0 if u else base + offset
                self._fill(Entry(unit, translated, r, w, n, u))
            else:
                slot = self.slot_of(unit)
                if slot is not None:
                    self.slots[slot] = None

    def _fill(self, entry):
        """Put an entry into the ATC."""
        slot = self.slot_of(entry.unit)
        if slot is None and None in self.slots:
            slot = self.slots.index(None)
        if slot is None:
            slot = self.hand % SLOTS
            self.hand = (self.hand + 1) % HAND_VALUES
        self.slots[slot] = entry

    # --- invalidation -----------------------------------------------------

    def _invalidate(self, fields):
        """An Invalidate Request that is ours; or 10, 9."""
        if self.agent is not None and fields.sender != self.agent:
            return 10
        if fields.itag in self.waiting:
            return 9
        base, log2 = packets.size(fields.address | fields.s << 11)
        size = max(2 ** log2, self.unit_size())
        low = base - base % size
        high = low + size
        for slot, entry in enumerate(self.slots):
            if entry is not None and overlap(
                    low, high, entry.unit, entry.unit + self.unit_size()):
                self.slots[slot] = None
        for tag, request in enumerate(self.tags):
            if isinstance(request, OpenTr):
                if overlap(low, high, self.unit_of(request.address),
                           self.range_end(request)):
                    self.tags[tag] = replace(request, stale=True)
            if isinstance(request, OpenRead) and request.translated:
                if overlap(low, high, request.address,
                           request.address + request.asked):
                    self.tags[tag] = replace(
                        request, itags=request.itags | {fields.itag})
        self.waiting = self.waiting | {fields.itag}
        self.agent = fields.sender
        return DONE

    def ready(self):
        """The ITags that no open read holds back any more, ascending."""
        held = frozenset()
        for request in self.tags:
            if isinstance(request, OpenRead):
                held = held | request.itags
        return sorted(self.waiting - held)

    def drain(self, room):
        """Send one Invalidate Completion: its count; 0 if none; or 17."""
        itags = self.ready()
        if not itags:
            return Outcome("count", 0)
        fields = packets.Ic(tc=0, sender=self.id, device=self.agent, cc=1,
                            vector=sum(1 << itag for itag in itags))
        packet = self._packet(fields, b"", room)
        if packet == 17:
            return 17
        self.waiting = self.waiting - frozenset(itags)
        return Outcome("count", len(itags), packet)

    # --- page requests ----------------------------------------------------

    def pages_on(self, allocation):
        """Switch the page interface on; or 15, 12."""
        if self.pages == STOPPED:
            return 15
        if self.pages == ON:
            return 12
        if not 1 <= allocation <= MOST_CREDITS:
            return 12
        self.pages = ON
        self.allocation = allocation
        self.credits = allocation
        return DONE

    def pages_off(self):
        """Switch it off; nothing happens when it is off or stopped."""
        if self.pages == ON:
            self._close_pages(OFF)
        return DONE

    def page_request(self, address, index, l, w, r, room):
        """Send a Page Request; or 15, 12, 16, 17."""
        if self.pages != ON:
            return 15
        if not r and not w:
            return 12
        if address % PAGE != 0:
            return 12
        if index >= GROUPS:
            return 12
        group = self.groups[index]
        if group.waits or self.credits == 0:
            return 16
        fields = packets.Prq(tc=0, sender=self.id, address=address,
                             index=index, l=l, w=w, r=r)
        packet = self._packet(fields, b"", room)
        if packet == 17:
            return 17
        self.credits -= 1
        self.groups[index] = Group(group.sent + 1, bool(l))
        return Outcome("done", packet=packet)

    def _response(self, fields):
        """A PRG Response that is ours; or 7."""
        if self.pages != ON:
            return 7
        if fields.code >= 2:
            self._close_pages(STOPPED)
            return DONE
        if fields.index >= GROUPS or not self.groups[fields.index].waits:
            return 7
        self.credits += self.groups[fields.index].sent
        self.groups[fields.index] = Group()
        return DONE
