"""Lines for the listing program.

Each case is (kind it was made from, line, number wanted) as for reading; a
line is any run of bytes without a line feed. The last one is meant to stand
at the end of the file with no line feed behind it.
"""

from cases_reading import forbidden, mutated, poisoned
from masks import with_attr
from samples import FORMS, KIND, clean, noisy, poke, resized


def cased(rng, packet):
    """Hex in upper, lower or mixed case."""
    text = packet.hex()
    how = rng.below(3)
    if how == 0:
        return text.upper()
    if how == 1:
        return text
    return "".join(c.upper() if rng.bits(1) else c for c in text)


def of_packets(rng):
    """Valid packets and packets a little off."""
    for form in FORMS:
        for _ in range(32):
            yield form, noisy(rng, form), "ok"
        for _ in range(6):
            yield form, clean(rng, form), "ok"
        for packet in forbidden(rng, form)[::2]:
            yield form, packet, 4
        for count in (0, 1, 11, 143, 145, 149, 150):
            yield form, resized(rng, noisy(rng, form), count), 1
    for form, packet, want in poisoned(rng):
        yield form, packet, want
    for form in ("WR32", "WR64", "CPLD"):
        for length in (31, 32):
            yield form, noisy(rng, form, length), "ok"
    for _ in range(300):
        yield mutated(rng) + (None,)


def of_attrs(rng):
    """Packets that differ in Attr alone, which no line of output shows."""
    for form in FORMS:
        wrong = forbidden(rng, form)[:1]
        for code in range(8):
            for packet in wrong:
                yield form, with_attr(packet, code), 4
        packet, other = clean(rng, form), noisy(rng, form)
        for code in range(8):
            yield form, with_attr(packet, code), "ok"
            yield form, with_attr(other, code), "ok"
            yield form, with_attr(poke(packet, 2, 0xC0, 0x40), code), 3


def of_text(rng):
    """Lines that are not the hex of anything, or too long."""
    # Every byte but the line feed in place of one character.
    for value in range(256):
        if value == 0x0A:
            continue
        form = rng.pick(FORMS)
        text = bytearray(noisy(rng, form).hex().upper().encode("ascii"))
        text[8 + rng.below(4)] = value      # within the sender's ID
        ok = value in b"0123456789ABCDEFabcdef"
        yield form, bytes(text), "ok" if ok else 0
    for form in FORMS:
        text = noisy(rng, form).hex().upper().encode("ascii")
        for line in (text + b"\r", text[:-1] + b"\r", b"\r" + text,
                     text[:-1], text + b"0", b" " + text, text + b" ",
                     b"  " + text, text + b"\t\t", b"0x" + text,
                     text[:2] + b" " + text[2:] + b" ", text[:-2] + b"0\0",
                     text + b"\0", text[:-2] + b"\xC3\xA9",
                     text[:-2] + b"\xFF\xFF", text[:-2] + b"+1",
                     text[:-2] + b"_0", text + b"\x85\x0C"):
            yield form, line, 0
    for form in ("WR32", "CPLD", "RD32"):
        whole = resized(rng, noisy(rng, form), 144).hex().encode("ascii")
        filler = rng.data(2600).hex().encode("ascii")
        for line in (whole[:287], whole[:287] + b"\r", whole[:286] + b"\r\r",
                     whole[:287] + b"G", whole[:286] + b"\xC3\xA9",
                     b"\0" * 288, b"x" * 287, b"G" * 288):
            yield form, line, 0
        for line in (whole + b"\r", whole + b"0", whole + b"00",
                     whole + filler[:12], whole[:287] + b"\xC3\xA9",
                     b"\0" * 289, b"G" * 289, b"G" * 290, b"\r" * 300,
                     b"\xFF" * 300, filler[:5000], filler[:4999]):
            yield form, line, 1
    for line, want in ((b"", 1), (b"\r", 0), (b"0", 0), (b"00", 1),
                       (b"\0", 0), (b"\0\0", 0), (b"G", 0), (b"GG", 0),
                       (b"FF", 1), (b"fF", 1), (b" ", 0), (b"", 1),
                       (b"\t\t", 0), (b"-", 0), (b"BAD", 0), (b"\x1A", 0)):
        yield "TR32", line, want


def cases(rng):
    """All of them, shuffled, then the line that ends the file."""
    out = [(KIND[form], cased(rng, packet).encode("ascii"), want)
           for form, packet, want in of_packets(rng)]
    out += [(KIND[form], line, want) for form, line, want in of_text(rng)]
    out += [(KIND[form], cased(rng, packet).encode("ascii"), want)
            for form, packet, want in of_attrs(rng)]
    for i in range(len(out) - 1, 0, -1):
        j = rng.below(i + 1)
        out[i], out[j] = out[j], out[i]
    last = noisy(rng, "INV").hex().encode("ascii")
    return out + [(KIND["INV"], last, "ok")]
