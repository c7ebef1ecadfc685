"""The packet layer: reading, writing, and the size code.

Implements these parts of document 01: "The seven packets" (layout table,
header and payload lengths, forbidden values, sizes) and, for reading and
writing, the numbers 1, 2, 3, 4, 12, 17 with their order.

A packet is known by a record of its fields (one class for each kind; MEM and
CPL have two each, without and with payload). Flags are the integers 0 and 1.
A refusal is returned as its number, a plain int. No record is ever an int.

Since request a) the three Attr bits are fields of every kind. No value of
them is forbidden.
"""

from dataclasses import dataclass, field, replace

SHORTEST, LONGEST = 12, 144     # bytes of any packet
MOST_DWORDS = 32                # of a TR, a MEM or a data completion
ALL_PAGE_BITS = (1 << 64) - (1 << 12)

# Header length for each listed byte 0.
HEADER = {
    0x00: 12, 0x40: 12, 0x0A: 12, 0x4A: 12,
    0x20: 16, 0x60: 16, 0x72: 16, 0x32: 16, 0x30: 16,
}
# Those that 4 x Length bytes follow.
CARRIES = (0x40, 0x60, 0x4A, 0x72)
# Message codes (byte 7) that go with each message's byte 0.
CODES = {0x72: (0x01,), 0x32: (0x02, 0x05), 0x30: (0x04,)}


# --- records of fields ----------------------------------------------------

@dataclass(frozen=True)
class Attr:
    """Attr: bit 2 of byte 1, then bits 5 and 4 of byte 2."""
    id_based: int = 0   # ID-based ordering
    relaxed: int = 0    # Relaxed Ordering
    no_snoop: int = 0

    def code(self):
        """The three as a number, its highest bit the first of them."""
        return self.id_based << 2 | self.relaxed << 1 | self.no_snoop


# Each stands at the place of its code.
ATTRS = tuple(Attr(code >> 2, code >> 1 & 1, code & 1) for code in range(8))
NO_ATTR = ATTRS[0]


@dataclass(frozen=True)
class Fields:
    """What all kinds have beside their own; TC and sender stand in each."""
    attr: Attr = field(default=NO_ATTR, kw_only=True)


@dataclass(frozen=True)
class Tr(Fields):
    """Translation Request."""
    tc: int
    sender: int
    tag: int
    length: int
    address: int
    no_write: int


@dataclass(frozen=True)
class MemRead(Fields):
    """Memory read; translated is 1 for AT 10, 0 for AT 00."""
    tc: int
    sender: int
    tag: int
    length: int
    address: int
    translated: int


@dataclass(frozen=True)
class MemWrite(Fields):
    """Memory write; it has no Tag."""
    tc: int
    sender: int
    length: int
    address: int
    translated: int


@dataclass(frozen=True)
class Cpl(Fields):
    """Completion without data."""
    tc: int
    sender: int
    status: int
    byte_count: int
    requester: int
    tag: int
    lower: int


@dataclass(frozen=True)
class CplData(Fields):
    """Completion with data; its status can only be 000."""
    tc: int
    sender: int
    length: int
    byte_count: int
    requester: int
    tag: int
    lower: int


@dataclass(frozen=True)
class Inv(Fields):
    """Invalidate Request; address and s are its body."""
    tc: int
    sender: int
    itag: int
    device: int
    address: int
    s: int


@dataclass(frozen=True)
class Ic(Fields):
    """Invalidate Completion."""
    tc: int
    sender: int
    device: int
    cc: int
    vector: int


@dataclass(frozen=True)
class Prq(Fields):
    """Page Request."""
    tc: int
    sender: int
    address: int
    index: int
    l: int
    w: int
    r: int


@dataclass(frozen=True)
class Prs(Fields):
    """PRG Response."""
    tc: int
    sender: int
    device: int
    code: int
    index: int


# --- the size code --------------------------------------------------------

def size(word):
    """(base, log2 of the size) of a translation or INV body, None if none.

    Document 01, "Sizes": bit 11 says whether the address bits code a size.
    If so, ones from bit 12 up count doublings and a zero bit ends them:
    a zero at b says 2 to the power b + 1. Without one there is no size.
    """
    if not word >> 11 & 1:
        return word & ALL_PAGE_BITS, 12
    for b in range(12, 64):
        if not word >> b & 1:
            return (word >> b + 1) << b + 1, b + 1
    return None


# --- reading --------------------------------------------------------------

def _number(packet, first, last):
    """Bytes first to last, both included, high byte first."""
    return int.from_bytes(packet[first:last + 1], "big")


def read(packet):
    """The fields of a packet, or 1, 2, 3 or 4.

    Document 01, "Order", reading: the outer bounds of the length; what kind
    it is; its exact length; TD and EP; the forbidden values.
    """
    if not SHORTEST <= len(packet) <= LONGEST:
        return 1
    byte0 = packet[0]
    if byte0 not in HEADER:
        return 2
    if byte0 in CODES and packet[7] not in CODES[byte0]:
        return 2
    length = _number(packet, 2, 3) & 0x3FF
    due = HEADER[byte0]
    if byte0 in CARRIES:
        due += 4 * (length or 1024)
    if len(packet) != due:
        return 1
    if packet[2] & 0xC0:
        return 3
    tc = packet[1] >> 4 & 7
    sender = _number(packet, 4, 5)
    if byte0 in CODES:
        fields = _read_message(packet, tc, sender, length)
    elif byte0 in (0x0A, 0x4A):
        fields = _read_completion(packet, tc, sender, length)
    else:
        fields = _read_memory(packet, tc, sender, length)
    if isinstance(fields, int):
        return fields
    return replace(fields, attr=_read_attr(packet))


def _read_attr(packet):
    """The Attr bits, which stand at the same places in all kinds."""
    return Attr(packet[1] >> 2 & 1, packet[2] >> 5 & 1, packet[2] >> 4 & 1)


def _read_memory(packet, tc, sender, length):
    """TR and MEM, whose address is of 32 or 64 bits; or 4."""
    byte0, tag, enables = packet[0], packet[6], packet[7]
    writes = byte0 in (0x40, 0x60)
    at = packet[2] >> 2 & 3
    if byte0 in (0x20, 0x60):
        address = _number(packet, 8, 15)
        if address < 1 << 32:
            return 4
    else:
        address = _number(packet, 8, 11)
    if at == 3 or (at == 1 and writes):
        return 4
    if at == 1:
        if length % 2 == 1 or length == 0 or length > MOST_DWORDS:
            return 4
        if enables != 0xFF:
            return 4
        page = address & ALL_PAGE_BITS
        return Tr(tc, sender, tag, length, page, address & 1)
    if length == 0 or length > MOST_DWORDS:
        return 4
    if enables != (0x0F if length == 1 else 0xFF):
        return 4
    address = address >> 2 << 2
    translated = 1 if at == 2 else 0
    if writes:
        return MemWrite(tc, sender, length, address, translated)
    return MemRead(tc, sender, tag, length, address, translated)


def _read_completion(packet, tc, sender, length):
    """CPL, without or with data; or 4."""
    status = packet[6] >> 5
    byte_count = _number(packet, 6, 7) & 0xFFF
    requester = _number(packet, 8, 9)
    tag, lower = packet[10], packet[11] & 0x7F
    if packet[0] == 0x0A:
        if status == 2:
            return 4
        return Cpl(tc, sender, status, byte_count, requester, tag, lower)
    if status != 0:
        return 4
    if length == 0 or length > MOST_DWORDS:
        return 4
    return CplData(tc, sender, length, byte_count, requester, tag, lower)


def _read_message(packet, tc, sender, length):
    """INV, IC, PRQ and PRS, by the message code; or 4."""
    code = packet[7]
    device = _number(packet, 8, 9)
    if code == 0x01:
        if length != 2:
            return 4
        body = _number(packet, 16, 23)
        address, s = body & ALL_PAGE_BITS, body >> 11 & 1
        if s and address == ALL_PAGE_BITS:
            return 4
        return Inv(tc, sender, packet[6] & 0x1F, device, address, s)
    if code == 0x02:
        vector = _number(packet, 12, 15)
        return Ic(tc, sender, device, packet[11] & 7, vector)
    if tc != 0:
        return 4
    if code == 0x04:
        word = _number(packet, 8, 15)
        return Prq(tc, sender, word & ALL_PAGE_BITS, word >> 3 & 0x1FF,
                   word >> 2 & 1, word >> 1 & 1, word & 1)
    word = _number(packet, 10, 11)
    return Prs(tc, sender, device, word >> 12, word & 0x1FF)


def payload_of(fields, packet):
    """The payload of a packet that was read as these fields."""
    if isinstance(fields, (MemWrite, CplData)):
        return packet[len(packet) - 4 * fields.length:]
    return b""


# --- writing --------------------------------------------------------------

# How many values each field has in its bits. Attr is not among them: it is
# made of bits, and has a place for each.
VALUES = {
    "tc": 1 << 3, "sender": 1 << 16, "tag": 1 << 8, "length": 1 << 10,
    "address": 1 << 64, "no_write": 2, "translated": 2,
    "status": 1 << 3, "byte_count": 1 << 12, "requester": 1 << 16,
    "lower": 1 << 7, "itag": 1 << 5, "device": 1 << 16, "s": 2,
    "cc": 1 << 3, "vector": 1 << 32, "index": 1 << 9, "l": 2, "w": 2, "r": 2,
    "code": 1 << 4,
}
# Addresses go into the packet without the bits below these.
STEP = {Tr: 4096, MemRead: 4, MemWrite: 4, Inv: 4096, Prq: 4096}


def write(fields, payload, room):
    """The bytes of a packet, or 12, 4 or 17.

    Document 01, "Order", writing: first what has no place in the bits and a
    payload of another length than the Length says; then the forbidden
    values; last the room in the output buffer.
    """
    if _misplaced(fields) or len(payload) != _payload_due(fields):
        return 12
    if _forbidden(fields):
        return 4
    packet = _lay_out(fields) + bytes(payload)
    if len(packet) > room:
        return 17
    return packet


def write_into(fields, payload, buffer):
    """Put a packet at the start of a lent bytearray; what write gives."""
    packet = write(fields, payload, len(buffer))
    if not isinstance(packet, int):
        buffer[:len(packet)] = packet
    return packet


def _misplaced(fields):
    """Has a value, or an address's low part, no place in the packet?"""
    for name, values in VALUES.items():
        if not 0 <= getattr(fields, name, 0) < values:
            return True
    return type(fields) in STEP and fields.address % STEP[type(fields)] != 0


def _payload_due(fields):
    """How many bytes of payload must be handed over; Length 0 means 1024."""
    if isinstance(fields, (MemWrite, CplData)):
        return 4 * (fields.length or 1024)
    return 0


def _forbidden(fields):
    """Does a record hold one of the values that number 4 forbids?"""
    if isinstance(fields, Tr):
        return fields.length not in range(2, MOST_DWORDS + 1, 2)
    if isinstance(fields, (MemRead, MemWrite, CplData)):
        return fields.length not in range(1, MOST_DWORDS + 1)
    if isinstance(fields, Cpl):
        return fields.status == 2
    if isinstance(fields, Inv):
        return fields.s == 1 and fields.address == ALL_PAGE_BITS
    if isinstance(fields, (Prq, Prs)):
        return fields.tc != 0
    return False


def _start(fields, byte0, at=0, length=0, byte6=0, byte7=0):
    """Bytes 0 to 7, alike in all kinds."""
    attr = fields.attr
    byte1 = fields.tc << 4 | attr.id_based << 2
    orders = attr.relaxed << 13 | attr.no_snoop << 12
    return (bytes([byte0, byte1])
            + (orders | at << 10 | length).to_bytes(2, "big")
            + fields.sender.to_bytes(2, "big")
            + bytes([byte6, byte7]))


def _lay_out(f):
    """The packet up to its payload, for fields already found good."""
    if isinstance(f, (Tr, MemRead, MemWrite)):
        wide = f.address >= 1 << 32
        byte0 = 0x40 if isinstance(f, MemWrite) else 0x00
        byte0 += 0x20 if wide else 0x00
        width = 8 if wide else 4
        if isinstance(f, Tr):
            word = (f.address | f.no_write).to_bytes(width, "big")
            return _start(f, byte0, 1, f.length, f.tag, 0xFF) + word
        tag = 0 if isinstance(f, MemWrite) else f.tag
        enables = 0x0F if f.length == 1 else 0xFF
        at = 2 if f.translated else 0
        return (_start(f, byte0, at, f.length, tag, enables)
                + f.address.to_bytes(width, "big"))
    if isinstance(f, (Cpl, CplData)):
        data = isinstance(f, CplData)
        status = 0 if data else f.status
        return (_start(f, 0x4A if data else 0x0A, 0, f.length if data else 0,
                       status << 5 | f.byte_count >> 8, f.byte_count & 0xFF)
                + f.requester.to_bytes(2, "big") + bytes([f.tag, f.lower]))
    if isinstance(f, Inv):
        return (_start(f, 0x72, 0, 2, f.itag, 0x01)
                + f.device.to_bytes(2, "big") + bytes(6)
                + (f.address | f.s << 11).to_bytes(8, "big"))
    if isinstance(f, Ic):
        return (_start(f, 0x32, byte7=0x02) + f.device.to_bytes(2, "big")
                + bytes([0, f.cc]) + f.vector.to_bytes(4, "big"))
    if isinstance(f, Prq):
        low = f.index << 3 | f.l << 2 | f.w << 1 | f.r
        return (_start(f, 0x30, byte7=0x04)
                + (f.address | low).to_bytes(8, "big"))
    return (_start(f, 0x32, byte7=0x05) + f.device.to_bytes(2, "big")
            + (f.code << 12 | f.index).to_bytes(2, "big") + bytes(4))
