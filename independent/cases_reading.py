"""Lines for the reading test.

Each case is (kind it was made from, line, number wanted). The number comes
from how the case was made: 0 to 4 for a refusal, "ok" for none, None where
chance decides. The generator fails if the reader says otherwise.
"""

from samples import (FORMS, KIND, MESSAGES, WITH_PAYLOAD, clean, flip, lengths,
                     noisy, poke, resized, with_length)
from masks import ATTR, NAMED, with_attr

MEMORY = ("TR32", "TR64", "RD32", "RD64", "WR32", "WR64")
TR_LENGTHS_BAD = (0, 1, 3, 31, 33, 34, 64, 256, 258, 512, 514, 1022, 1023)
READ_LENGTHS_BAD = (0, 33, 34, 64, 256, 257, 512, 513, 1023)
UNNAMED = (0x80, 0x08, 0x02, 0x01)      # of byte 1, in every kind
ENABLES = (0x00, 0x01, 0x0E, 0x0F, 0x1F, 0x7F, 0x8F, 0xF0, 0xFE, 0xFF)


def valid(rng):
    """Every form with random Attr, ignored bits and every allowed Length."""
    for form in FORMS:
        yield form, clean(rng, form), "ok"
        for length in lengths(form) or (None,) * 24:
            yield form, noisy(rng, form, length), "ok"
        for _ in range(6):
            yield form, noisy(rng, form), "ok"


def flips(rng):
    """Single bits turned: all of bytes 0 to 3, and every unnamed one.

    An unnamed bit must change nothing, and one of Attr nothing else.
    """
    for form in FORMS:
        packet = clean(rng, form, (lengths(form) or (None,))[0])
        mask = NAMED[form]
        for bit in range(8 * len(mask)):
            unnamed = not mask[bit // 8] & 0x80 >> bit % 8
            attr = bit < 24 and ATTR[bit // 8] & 0x80 >> bit % 8
            if unnamed or bit < 32:
                yield form, flip(packet, bit), (
                    "ok" if unnamed or attr else None)


def attrs(rng):
    """Each Attr in every form, and the unnamed bits that stand beside it."""
    for form in FORMS:
        packet = clean(rng, form, (lengths(form) or (None,))[0])
        beside = sum(UNNAMED)
        for code in range(8):
            yield form, with_attr(packet, code), "ok"
            yield form, with_attr(poke(packet, 1, beside, beside), code), "ok"
        for bit in UNNAMED:
            for code in (0, 4, 7):
                yield form, with_attr(poke(packet, 1, bit, bit), code), "ok"


def attrs_refused(rng):
    """Packets that are refused the same whatever their Attr is."""
    for form in FORMS:
        for code in range(1, 8):
            packet = with_attr(clean(rng, form), code)
            yield form, packet[:11], 1
            yield form, packet + rng.data(4), 1
            yield form, poke(packet, 0, 0xFF, 0x01), 2
            if form in MESSAGES:
                yield form, poke(packet, 7, 0xFF, 0x03), 2
            for bits in (0x80, 0x40, 0xC0):
                yield form, poke(packet, 2, 0xC0, bits), 3
        for at, packet in enumerate(forbidden(rng, form)):
            yield form, with_attr(packet, at % 7 + 1), 4


def forbidden(rng, form):
    """Packets of right length with one forbidden value each (number 4)."""
    out = []
    if form in MEMORY:
        out.append(poke(noisy(rng, form), 2, 0x0C, 0x0C))
        for length in lengths(form)[:2]:
            right = 0x0F if length == 1 else 0xFF
            out += [poke(noisy(rng, form, length), 7, 0xFF, value)
                    for value in ENABLES if value != right]
    if form.startswith("TR"):
        out += [with_length(noisy(rng, form), n) for n in TR_LENGTHS_BAD]
    if form.startswith("RD"):
        out += [with_length(noisy(rng, form, 2), n) for n in READ_LENGTHS_BAD]
        # Asked as a TR it has an odd Length.
        out.append(poke(noisy(rng, form, 3), 2, 0x0C, 0x04))
    if form.startswith("WR"):
        out += [poke(noisy(rng, form, n), 2, 0x0C, 0x04) for n in (1, 2)]
    if form.endswith("64"):
        for _ in range(2):
            packet = noisy(rng, form)
            out.append(packet[:8] + bytes(4) + packet[12:])
        out.append(packet[:8] + bytes(4) + b"\xFF" * 4 + packet[16:])
    if form in ("WR32", "CPLD"):
        packet = noisy(rng, form, 32)
        out.append(with_length(resized(rng, packet, 144), 33))
    if form == "CPL":
        out += [poke(noisy(rng, form), 6, 0xE0, 0x40) for _ in range(3)]
    if form == "CPLD":
        out += [poke(noisy(rng, form, 2), 6, 0xE0, s << 5)
                for s in range(1, 8)]
    if form == "INV":
        packet = noisy(rng, form)
        out += [with_length(resized(rng, packet, 16 + 4 * n), n)
                for n in (1, 3, 4, 31, 32)]
        for low in (0xF800, 0xFFFF, 0xF800 | rng.bits(11)):
            out.append(packet[:16] + b"\xFF" * 6 + low.to_bytes(2, "big"))
    if form in ("PRQ", "PRS"):
        out += [poke(noisy(rng, form), 1, 0x70, tc << 4) for tc in range(1, 8)]
    return out


def forbidden_alone(rng):
    """Every forbidden value by itself."""
    for form in FORMS:
        for packet in forbidden(rng, form):
            yield form, packet, 4


def allowed_beside(rng):
    """The values next to the forbidden ones, and fields that allow all."""
    for form in FORMS:
        if form not in ("PRQ", "PRS"):
            for tc in range(8):
                yield form, poke(noisy(rng, form), 1, 0x70, tc << 4), "ok"
        if form not in MEMORY:
            for at in range(4):
                yield form, poke(noisy(rng, form), 2, 0x0C, at << 2), "ok"
        if form.endswith("64"):
            for bit in range(32):
                packet = noisy(rng, form)
                upper = (1 << bit).to_bytes(4, "big")
                yield form, packet[:8] + upper + packet[12:], "ok"
            lowest = (1 << 32).to_bytes(8, "big")
            yield form, packet[:8] + lowest + packet[16:], "ok"
        if form.endswith("32"):
            yield form, noisy(rng, form)[:8] + bytes(4), (
                "ok" if form not in WITH_PAYLOAD else 1)
    for form in ("TR32", "TR64"):
        # The same bytes asked as a memory read, plain or translated.
        for at in (0, 2):
            yield form, poke(noisy(rng, form), 2, 0x0C, at << 2), "ok"
    for form in ("RD32", "RD64"):
        for length in (2, 4, 32):
            yield form, poke(noisy(rng, form, length), 2, 0x0C, 0x04), "ok"
    for form in ("RD32", "RD64", "WR32", "WR64"):
        for at in (0, 2):
            for length in (1, 2, 31, 32):
                yield form, poke(noisy(rng, form, length), 2, 0x0C,
                                 at << 2), "ok"
    for status in (0, 1, 3, 4, 5, 6, 7):
        yield "CPL", poke(noisy(rng, "CPL"), 6, 0xE0, status << 5), "ok"
    for form in ("CPL", "CPLD"):
        for count in (0, 1, 255, 256, 2048, 4095):
            packet = poke(noisy(rng, form), 6, 0x0F, count >> 8)
            yield form, poke(packet, 7, 0xFF, count & 0xFF), "ok"
    body = (1 << 64) - 1
    for low in range(3):
        word = (body & ~0x800) - low * 0x200
        yield "INV", clean(rng, "INV")[:16] + word.to_bytes(8, "big"), "ok"
    for bit in range(12, 64):
        word = body ^ 1 << bit
        yield "INV", clean(rng, "INV")[:16] + word.to_bytes(8, "big"), "ok"
    for word in (0, 7):
        yield "PRQ", clean(rng, "PRQ")[:8] + word.to_bytes(8, "big"), "ok"


def first_bytes(rng):
    """All values of byte 0, and all message codes of the messages."""
    listed = (0x00, 0x20, 0x40, 0x60, 0x0A, 0x4A, 0x72, 0x32, 0x30)
    for value in range(256):
        form = FORMS[value % len(FORMS)]
        packet = poke(noisy(rng, form), 0, 0xFF, value)
        yield form, packet, None if value in listed else 2
    for value in listed:
        for form in FORMS:
            yield form, poke(clean(rng, form), 0, 0xFF, value), None
    for form, codes in (("PRQ", (4,)), ("IC", (2, 5)), ("INV", (1,))):
        for value in range(256):
            packet = poke(clean(rng, form), 1, 0x70, 0)
            yield form, poke(packet, 7, 0xFF, value), (
                "ok" if value in codes else 2)


def poisoned(rng):
    """TD, EP, or both."""
    for form in FORMS:
        for bits in (0x80, 0x40, 0xC0):
            yield form, poke(noisy(rng, form), 2, 0xC0, bits), 3


def whole_lengths(rng):
    """Packets cut short or lengthened, and Lengths that do not agree."""
    for form in FORMS:
        packet = noisy(rng, form)
        right = len(packet)
        for count in (right - 4, right - 1, right + 1, right + 4, right + 8,
                      0, 1, 8, 11, 12, 13, 15, 16, 17, 20, 143, 144, 145, 148):
            yield form, resized(rng, packet, count), (
                "ok" if count == right else 1)
        # A digest behind a packet with TD: the length is looked at first.
        yield form, poke(packet, 2, 0xC0, 0x80) + rng.data(4), 1
    for form in WITH_PAYLOAD + ("INV",):
        head = len(NAMED[form]) - (8 if form == "INV" else 0)
        for length in (0, 1, 2, 3, 31, 32, 33, 34, 256, 257, 258, 512, 1023):
            packet = noisy(rng, form, 2 if form in WITH_PAYLOAD else None)
            if form.startswith("WR") and length == 1:
                packet = poke(packet, 7, 0xFF, 0x0F)
            given = head + 4 * (length or 1024)
            for count in sorted({head, head + 4, head + 8, given - 4,
                                 given - 1, given, given + 4, 144}):
                if count > 148:
                    continue
                if count != given or given > 144:
                    want = 1
                elif length > 32 or (form == "INV" and length != 2):
                    want = 4
                else:
                    want = "ok"
                yield form, with_length(resized(rng, packet, count),
                                        length), want


def pairs(rng):
    """Packets that deserve two or more numbers, to see which comes first."""
    for form in FORMS:
        good = noisy(rng, form)
        unlisted = poke(good, 0, 0xFF, 0x01)
        yield form, unlisted[:11], 1                                # 1 and 2
        yield form, resized(rng, unlisted, 145), 1
        yield form, unlisted[:8] + rng.data(5), 2                   # 2 and 1
        yield form, unlisted + rng.data(1), 2
        yield form, poke(unlisted, 2, 0xC0, 0x40), 2                # 2 and 3
        for bits in (0x80, 0x40):
            dirty = poke(good, 2, 0xC0, bits)
            yield form, dirty[:11], 1                               # 1 and 3
            yield form, dirty + rng.data(1), 1
            yield form, dirty + rng.data(4), 1
            yield form, poke(dirty, 0, 0xFF, 0xFF) + rng.data(4), 2
        if form in MESSAGES:
            other = poke(good, 7, 0xFF, 0x03)
            yield form, other[:11], 1                               # 1 and 2
            yield form, resized(rng, other, 145), 1
            yield form, other[:12], 2                               # 2 and 1
            yield form, other + rng.data(4), 2
            yield form, poke(other, 2, 0xC0, 0x80), 2               # 2 and 3
            yield form, poke(other, 2, 0xC0, 0x80)[:13], 2
        wrong = forbidden(rng, form)
        for packet in wrong[:2] + wrong[2::6]:
            yield form, poke(packet, 2, 0xC0, 0x80), 3              # 3 and 4
            yield form, poke(packet, 2, 0xC0, 0x40), 3
            yield form, packet[:-1], 1                              # 1 and 4
            yield form, packet + rng.data(4), 1
            yield form, poke(packet, 2, 0xC0, 0x80) + rng.data(4), 1
            yield form, poke(packet, 0, 0xFF, 0x80), 2              # 2 and 4
            if form in MESSAGES:
                yield form, poke(packet, 7, 0xFF, 0x06), 2
                yield form, poke(poke(packet, 7, 0xFF, 0x06),
                                 2, 0xC0, 0x40) + rng.data(2), 2


def chance(rng):
    """Random bytes, and valid packets changed at random."""
    listed = (0x00, 0x20, 0x40, 0x60, 0x0A, 0x4A, 0x72, 0x32, 0x30)
    for _ in range(60):
        yield rng.pick(FORMS), rng.data(rng.between(0, 40)), None
    for _ in range(60):
        packet = bytes([rng.pick(listed)]) + rng.data(rng.pick((11, 15, 23)))
        yield rng.pick(FORMS), packet, None
    for _ in range(400):
        yield mutated(rng) + (None,)


def mutated(rng):
    """(form, packet): a valid packet with one to three small changes."""
    form = rng.pick(FORMS)
    packet = noisy(rng, form)
    for _ in range(rng.between(1, 3)):
        how = rng.below(6)
        if how < 2 and packet:
            packet = flip(packet, rng.below(min(len(packet), 16) * 8))
        elif how < 4 and packet:
            packet = poke(packet, rng.below(min(len(packet), 12)), 0xFF,
                          rng.bits(8))
        elif how == 4 and packet:
            packet = packet[:len(packet) - rng.pick((1, 2, 4, 8))]
        else:
            packet = packet + rng.data(rng.pick((1, 2, 4, 8)))
    return form, packet


def malformed(rng):
    """Lines that spell no bytes at all."""
    for form in FORMS:
        text = noisy(rng, form).hex().upper()
        yield form, text[:-1], 0
        yield form, text + "G", 0
        yield form, text[:5] + "g" + text[6:], 0
        yield form, " " + text[1:], 0
        yield form, text + "Z" * (289 - len(text)), 1
        yield form, text + "Z" * (288 - len(text)), 0


def cases(rng):
    """All of them: (kind, line, number wanted)."""
    for part in (valid, flips, forbidden_alone, allowed_beside, first_bytes,
                 poisoned, whole_lengths, pairs, chance, attrs,
                 attrs_refused):
        for form, packet, want in part(rng):
            yield KIND[form], packet.hex().upper().encode("ascii"), want
    for form, text, want in malformed(rng):
        yield KIND[form], text.encode("ascii"), want
