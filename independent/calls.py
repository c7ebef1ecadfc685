"""Scripts of calls: one record a line in, one line out.

A record is a call in upper-case hex: a byte that names the call, then its
fields, high byte first, then what is left of the record as payload or packet.
The answer line tells the answer, the length of the packet sent, the lent
buffer, the payload handed back, and a digest of the state, parted by tabs. A
record "show" is answered by the bytes of the state.
"""

from function import ON, Function, OpenTr

MOST_RECORD = 256
HEX = frozenset(b"0123456789ABCDEF")
FILLER = 0xA5                   # what the lent buffer holds before a call

# Call -> its byte, (field, width) in order, and whether more may follow.
CALLS = {name: (code, tuple((part[:-1], int(part[-1]))
                            for part in text.split()), rest)
         for code, name, text, rest in (
    (0x00, "reset", "ident2 stu1 rcb1", False),
    (0x01, "enable", "", False),
    (0x02, "disable", "", False),
    (0x03, "ask", "room2 address8 units2 no_write1", False),
    (0x04, "read", "room2 address8 words2", True),
    (0x05, "write", "room2 address8 words2", True),
    (0x06, "receive", "", True),
    (0x07, "drain", "room2", False),
    (0x08, "pages on", "allocation2", False),
    (0x09, "pages off", "", False),
    (0x0A, "page request", "room2 address8 index2 flags1", False),
    (0x0F, "show", "", False),
)}
NAMES = {code: name for name, (code, _, _) in CALLS.items()}
# The letter of each answer.
LETTERS = {
    "tag": "T", "done": "D", "count": "C", "discarded": "X", "more": "M",
    "filled": "F", "aborted": "A", "switched off": "O",
    "payload, more": "P", "payload, last": "L", "read failed": "E",
}
NUMBERED = ("tag", "count")


# --- records --------------------------------------------------------------

def record(name, *values, rest=b""):
    """The record of a call with these fields."""
    code, layout, _ = CALLS[name]
    if len(values) != len(layout):
        raise ValueError("wrong number of fields for " + name)
    out = bytes([code])
    for value, (_, width) in zip(values, layout):
        out += value.to_bytes(width, "big")
    return out + rest


def parse(data):
    """(name, fields by name, rest) of a record."""
    if not data or len(data) > MOST_RECORD:
        raise ValueError("a record of %d bytes" % len(data))
    if data[0] not in NAMES:
        raise ValueError("no call %02X" % data[0])
    name = NAMES[data[0]]
    _, layout, more = CALLS[name]
    fields, at = {}, 1
    for field, width in layout:
        if at + width > len(data):
            raise ValueError("record ends inside its fields")
        fields[field] = int.from_bytes(data[at:at + width], "big")
        at += width
    if at < len(data) and not more:
        raise ValueError("record goes on after its fields")
    if fields.get("no_write", 0) > 1 or fields.get("flags", 0) > 7:
        raise ValueError("flags without a meaning")
    return name, fields, data[at:]


# --- running --------------------------------------------------------------

def run(function, name, f, rest):
    """What the Function gives for a parsed call."""
    if name == "reset":
        return function.reset(f["ident"], f["stu"], f["rcb"])
    if name == "enable":
        return function.enable()
    if name == "disable":
        return function.disable()
    if name == "ask":
        return function.ask(f["address"], f["units"], f["no_write"],
                            f["room"])
    if name == "read":
        return function.read(f["address"], f["words"], rest, f["room"])
    if name == "write":
        return function.write(f["address"], f["words"], rest, f["room"])
    if name == "receive":
        return function.receive(rest)
    if name == "drain":
        return function.drain(f["room"])
    if name == "pages on":
        return function.pages_on(f["allocation"])
    if name == "pages off":
        return function.pages_off()
    flags = f["flags"]
    return function.page_request(f["address"], f["index"], flags >> 2 & 1,
                                 flags >> 1 & 1, flags & 1, f["room"])


# --- the state ------------------------------------------------------------

def _vector(itags):
    """A vector of ITags, 4 bytes; bit i stands for ITag i."""
    return sum(1 << itag for itag in itags).to_bytes(4, "big")


def _slot(entry):
    """One slot."""
    if entry is None:
        return b"\0"
    flags = entry.r | entry.w << 1 | entry.n << 2 | entry.u << 3
    return (b"\1" + entry.unit.to_bytes(8, "big")
            + entry.translated.to_bytes(8, "big") + bytes([flags]))


def _tag(request):
    """One tag."""
    if request is None:
        return b"\0"
    if isinstance(request, OpenTr):
        return (b"\1" + request.address.to_bytes(8, "big")
                + bytes([request.units, request.stale, request.log2,
                         request.came]) + request.due.to_bytes(2, "big"))
    return (b"\2" + request.address.to_bytes(8, "big")
            + request.asked.to_bytes(2, "big")
            + request.due.to_bytes(2, "big")
            + bytes([request.translated]) + _vector(request.itags))


def state(function):
    """The bytes of the whole state."""
    out = function.id.to_bytes(2, "big")
    out += bytes([function.stu, function.rcb, function.enabled,
                  function.agent is not None])
    out += (function.agent or 0).to_bytes(2, "big")
    out += function.hand.to_bytes(4, "big")
    out += b"".join(_slot(entry) for entry in function.slots)
    out += b"".join(_tag(request) for request in function.tags)
    out += _vector(function.waiting)
    out += bytes([function.pages])
    if function.pages == ON:
        out += function.allocation.to_bytes(2, "big")
        out += function.credits.to_bytes(2, "big")
        for group in function.groups:
            out += group.sent.to_bytes(2, "big") + bytes([group.waits])
    return out


def digest(data):
    """Eight hex digits that stand for the bytes of a state."""
    h = 0
    for b in data:
        h = (h * 257 + b + 1) % 4294967291
    return "%08X" % h


# --- lines ----------------------------------------------------------------

def answer_of(outcome):
    """The first field of an answer line."""
    if isinstance(outcome, int):
        return "R%d" % outcome
    letter = LETTERS[outcome.answer]
    return letter + (str(outcome.number) if outcome.answer in NUMBERED
                     else "")


def hex_of(data):
    """Upper-case hex."""
    return data.hex().upper()


class Script:
    """A Function and the lines that it is given."""

    def __init__(self):
        self.function = Function()

    def answer(self, line):
        """The answer to one line, both without line feed."""
        if not HEX.issuperset(line):
            raise ValueError("not upper-case hex: %r" % line)
        return self.run(bytes.fromhex(line.decode("ascii")))

    def run(self, data):
        """The answer to one record."""
        name, fields, rest = parse(data)
        if name == "show":
            return hex_of(state(self.function))
        outcome = run(self.function, name, fields, rest)
        sent, payload = b"", b""
        if not isinstance(outcome, int):
            sent, payload = outcome.packet, outcome.payload
        buffer = bytearray([FILLER]) * fields.get("room", 0)
        buffer[:len(sent)] = sent
        return "\t".join((answer_of(outcome), str(len(sent)),
                          hex_of(buffer.rstrip(bytes([FILLER]))),
                          hex_of(payload), digest(state(self.function))))
