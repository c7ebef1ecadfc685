"""Records for the writing test.

Each case is (kind, record, number wanted): 12, 4 or 17 for a refusal, "ok"
for none, None where chance decides. The numbers come from how the cases are
made; the generator fails if the writer says otherwise.
"""

from dataclasses import replace

import packets
import records
from samples import (FORMS, WITH_PAYLOAD, fields, lengths, ordered,
                     payload)

MOST_RECORD = 4200              # bytes
MOST_ROOM = 512
ALL_PAGE_BITS = (1 << 64) - (1 << 12)
TOP = (1 << 64) - 1
# Values just outside each field's bits that its width in a record can hold.
OUTSIDE = {
    "tc": (8, 9, 16, 128, 255), "length": (1024, 1025, 1026, 2048, 65535),
    "status": (8, 10, 255), "byte_count": (4096, 4097, 65535),
    "lower": (128, 129, 255), "itag": (32, 33, 255), "cc": (8, 9, 255),
    "index": (512, 513, 1024, 65535), "code": (16, 17, 255),
}


def head_of(form):
    """Length of the packet before its payload (with an INV's body)."""
    return {"TR32": 12, "TR64": 16, "RD32": 12, "RD64": 16, "WR32": 12,
            "WR64": 16, "CPL": 12, "CPLD": 12, "INV": 24, "IC": 16,
            "PRQ": 16, "PRS": 16}[form]


def good(rng, form, length=None):
    """(fields, payload, length of the packet) that can be written."""
    record = ordered(rng, fields(rng, form, length))
    data = payload(rng, record)
    return record, data, head_of(form) + len(data)


def valid(rng):
    """All forms and Lengths, with buffers of many lengths."""
    for form in FORMS:
        for length in lengths(form) or (None,) * 20:
            record, data, due = good(rng, form, length)
            yield record, data, due, "ok"
            record, data, due = good(rng, form, length)
            room = rng.below(201)
            yield record, data, room, "ok" if room >= due else 17
        for _ in range(4):
            record, data, due = good(rng, form)
            for room in (0, 1, 4, 11, due - 4, due - 1, due, due + 1,
                         due + 4, 144, 200):
                yield record, data, room, "ok" if room >= due else 17


def outside(rng, form):
    """(fields, payload) with one field outside its bits (number 12)."""
    out = []
    for name, values in OUTSIDE.items():
        for value in values:
            record, data, _ = good(rng, form)
            if hasattr(record, name):
                out.append((replace(record, **{name: value}), data))
    record, data, _ = good(rng, form)
    if hasattr(record, "address"):
        few = form[:2] in ("RD", "WR")
        for low in (1, 2, 3) if few else [1 << b for b in range(12)] + [4095]:
            out.append((replace(record, address=record.address + low), data))
    return out


def misfits(rng, form):
    """(fields, payload) with a payload of another length (number 12)."""
    out = []
    if form not in WITH_PAYLOAD:
        for count in (1, 4, 8, 12):
            record, _, _ = good(rng, form)
            out.append((record, rng.data(count)))
        return out
    for length in (1, 2, 3, 32):
        record, data, _ = good(rng, form, length)
        out += [(record, data[:-1]), (record, data[:-4]), (record, b""),
                (record, data + rng.data(1)), (record, data + rng.data(4))]
    for count in (0, 4, 128, 200):
        out.append((replace(record, length=0), rng.data(count)))
        out.append((replace(record, length=33), rng.data(count)))
        out.append((replace(record, length=1023), rng.data(count)))
    return out


def forbidden(rng, form):
    """(fields, payload, length of the packet it would be), number 4."""
    out = []
    record, data, due = good(rng, form)
    if form.startswith("TR"):
        for n in (0, 1, 3, 15, 31, 33, 34, 35, 64, 256, 512, 1022, 1023):
            out.append((replace(record, length=n), b"", due))
    if form.startswith("RD"):
        for n in (0, 33, 34, 64, 256, 257, 512, 1023):
            out.append((replace(record, length=n), b"", due))
    if form in WITH_PAYLOAD:
        for n in (33, 34, 35, 64):
            out.append((replace(record, length=n), rng.data(4 * n),
                        head_of(form) + 4 * n))
    if form == "CPL":
        for _ in range(4):
            record, data, due = good(rng, form)
            out.append((replace(record, status=2), data, due))
    if form == "INV":
        for _ in range(4):
            record, data, due = good(rng, form)
            out.append((replace(record, address=ALL_PAGE_BITS, s=1), data,
                        due))
    if form in ("PRQ", "PRS"):
        for tc in range(1, 8):
            out.append((replace(record, tc=tc), data, due))
    return out


def refusals(rng):
    """Each refusal alone, then with those that come after it."""
    for form in FORMS:
        wrong = forbidden(rng, form)
        for record, data in outside(rng, form) + misfits(rng, form):
            yield record, data, 200, 12
        for record, data in (outside(rng, form) + misfits(rng, form))[::3]:
            yield record, data, rng.pick((0, 1, 11)), 12        # 12 and 17
        for record, data, due in wrong:
            yield record, data, max(due, 200), 4
            yield record, data, rng.pick((0, 1, due - 1)), 4    # 4 and 17
        for record, data, due in wrong[::2]:
            for room in (200, 0):                               # 12, 4 (17)
                if not (isinstance(record, (packets.Prq, packets.Prs))):
                    yield replace(record, tc=8), data, room, 12
                yield record, data + b"\0", room, 12
                if isinstance(record, packets.Cpl):
                    yield replace(record, byte_count=4096), data, room, 12
                if isinstance(record, packets.Inv):
                    yield replace(record, itag=32), data, room, 12
                if isinstance(record, (packets.Prq, packets.Prs)):
                    yield replace(record, index=512), data, room, 12
                if hasattr(record, "address"):
                    yield (replace(record, address=record.address | 1), data,
                           room, 12)


def edges(rng):
    """Addresses around 2^32 and at both ends, and extremes of each field."""
    for form in ("TR32", "RD32", "WR32", "INV", "PRQ"):
        step = 4 if form in ("RD32", "WR32") else 4096
        for address in (0, step, (1 << 32) - step, 1 << 32, (1 << 32) + step,
                        1 << 33, 1 << 63, (1 << 63) - step,
                        (1 << 64) - 2 * step, (1 << 64) - step):
            for length in (lengths(form) or (None,))[:2]:
                record, data, _ = good(rng, form, length)
                record = replace(record, address=address)
                if form == "INV":
                    record = replace(record, s=0)
                head = head_of(form)
                if step == 4 or form == "TR32":
                    head = 12 if address < 1 << 32 else 16
                due = head + len(data)
                for room in (due - 1, due):
                    yield record, data, room, "ok" if room == due else 17
            yield replace(record, address=address | 1), data, 200, 12
    for bit in range(12, 64):
        record, _, _ = good(rng, "INV")
        yield (replace(record, s=1, address=ALL_PAGE_BITS ^ 1 << bit), b"",
               24, "ok")
    for form in FORMS:
        for high in (False, True):
            record, data, due = good(rng, form)
            for name in vars(record):
                if name in ("length", "address", "status", "attr"):
                    continue
                if name == "tc" and form in ("PRQ", "PRS"):
                    continue
                value = packets.VALUES[name] - 1 if high else 0
                yield replace(record, **{name: value}), data, due, "ok"
        for tc in range(8):
            record, data, due = good(rng, form)
            if form not in ("PRQ", "PRS"):
                yield replace(record, tc=tc), data, due, "ok"
    for status in range(8):
        record, data, due = good(rng, "CPL")
        yield (replace(record, status=status), data, due,
               4 if status == 2 else "ok")


def attrs(rng):
    """Each Attr in every form, written and refused."""
    for form in FORMS:
        record, data, due = good(rng, form)
        for attr in packets.ATTRS:
            record = replace(record, attr=attr)
            yield record, data, due, "ok"
            yield record, data, due - 1, 17
            yield record, data + b"\0", due, 12
        for at, (record, data, due) in enumerate(forbidden(rng, form)):
            attr = packets.ATTRS[at % 7 + 1]
            yield replace(record, attr=attr), data, due, 4


def longest(rng):
    """Lengths as large as they can be said, with all their payload."""
    for form in WITH_PAYLOAD:
        record, _, _ = good(rng, form)
        for length, count, rooms, want in (
                (0, 4096, (0, 144, 512), 4), (0, 4092, (0, 144, 512), 12),
                (0, 4100, (0, 144, 512), 12), (0, 0, (0, 144, 512), 12),
                (1023, 4092, (512,), 4), (33, 132, (0, 144, 512), 4),
                (33, 128, (0, 144, 512), 12)):
            for room in rooms:
                yield (replace(record, length=length), rng.data(count), room,
                       want)


def chance(rng):
    """Fields drawn at random, often from outside."""
    for _ in range(300):
        form = rng.pick(FORMS)
        record, data, due = good(rng, form)
        for _ in range(rng.between(1, 2)):
            name = rng.pick(sorted(vars(record)))
            if name in OUTSIDE:
                values = OUTSIDE[name] + (0, 1, 2, 3, 7, 33)
                record = replace(record, **{name: rng.pick(values)})
            elif name == "address":
                value = rng.pick((rng.bits(64), rng.bits(32), ALL_PAGE_BITS,
                                  rng.bits(64) << rng.below(24) & TOP))
                record = replace(record, address=value)
        if rng.below(8) == 0:
            data = data[:-1] if rng.bits(1) else data + rng.data(4)
        yield record, data, rng.pick((0, due - 1, due, due, due, 200)), None


def cases(rng):
    """All of them: (kind, line, number wanted)."""
    for part in (valid, refusals, edges, chance, longest, attrs):
        for record, data, room, want in part(rng):
            packed = records.pack(record, room, data)
            if len(packed) > MOST_RECORD or room > MOST_ROOM:
                raise AssertionError("record too long")
            yield (records.NAMES[records.code_of(record)],
                   packed.hex().upper().encode("ascii"), want)
