"""Self-checks: python3 test_independent.py

The examples and the listing's example of document 01, packets worked out by
hand from its table, and round trips both ways, where what is left of a packet
is told by the masks and not by the writer. For the Function: examples 3, 4, 5,
8 and 9, cases worked out by hand, the form of its scripts, that no refused
call changes anything, and that the script of calls catches every wrong card.
Of Attr: that reading, writing and the records keep it, and that nothing the
Function or the listing does depends on it. For the host: walks worked out by
hand, the walk told another way, what a walk depends on and what its reply
says, the form of its scripts, and that they catch every wrong translator.
"""

import io
import sys
from dataclasses import replace

sys.dont_write_bytecode = True

import calls
import cases_calls
import cases_reading
import cases_walks
import cases_writing
import caught
import drivers
import generate
import host
import listing
import masks
import packets
import reached
import reached_attr
import reached_order
import reached_roles
import reached_walks
import records
import samples
import scripts_calls
import walks
import wrong_cards
import wrong_walks
from function import (OFF, ON, STOPPED, Entry, Function, Group, OpenRead,
                      OpenTr, Outcome)
from packets import (ATTRS, NO_ATTR, Attr, Cpl, CplData, Ic, Inv, MemRead,
                     MemWrite, Prq, Prs, Tr, read, size, write)
from rng import Rng

done = 0
failed = []


def same(what, got, want):
    """Count one check."""
    global done
    done += 1
    if got != want:
        failed.append("%s: got %r, wanted %r" % (what, got, want))


def unreadable(script, lines):
    """A script takes none of these lines for a record."""
    for line in lines:
        try:
            script.answer(line)
            same("taken %r" % line, True, False)
        except ValueError:
            same("no record", True, True)


def examples():
    """Examples 1, 2, 6, 7, and the listing."""
    same("1a", size(0x0800), (0, 13))
    same("1b", size(0x1800), (0, 14))
    same("2a", size(0x7FFFFFFFFFFFF800), (0, 64))
    same("2b", size(0xFFFFFFFFFFFFF800), None)
    head = "72000002 01000001 00080000 00000000"
    same("2a read", read(bytes.fromhex(head + "7FFFFFFFFFFFF800")),
         Inv(0, 0x0100, 0, 8, 0x7FFFFFFFFFFFF000, 1))
    same("2b read", read(bytes.fromhex(head + "FFFFFFFFFFFFF800")), 4)
    same("2b write", write(Inv(0, 0x0100, 0, 8, 0xFFFFFFFFFFFFF000, 1), b"",
                           24), 4)
    tr = bytes.fromhex("00000402010005FF00203000")
    ic = bytes.fromhex("32000000010000020008000180000001")
    same("6 line 1", read(tr), Tr(0, 0x0100, 5, 2, 0x203000, 0))
    same("6 line 2", read(ic), Ic(0, 0x0100, 8, 1, 0x80000001))
    same("7", write(Prq(0, 0x0100, 0x203000, 3, 1, 0, 1), b"", 16),
         bytes.fromhex("30000000 01000004 00000000 0020301D"))
    source = io.BytesIO(b"00000402010005FF00203000\n"
                        b"32000000010000020008000180000001\nFF\n")
    sink = io.BytesIO()
    listing.listing(source, sink)
    same("listing", sink.getvalue(),
         b"1\tTR\t0100\t5\n2\tIC\t0100\t80000001\n3\tBAD\t1\t-\n")


# Worked out by hand: fields, payload, packet.
BY_HAND = (
    (Tr(5, 0xBEEF, 0xA7, 32, 0xFEDCBA9876543000, 1), "",
     "20500420 BEEFA7FF FEDCBA98 76543001"),
    (Tr(0, 1, 0, 2, 0xFFFFF000, 1), "", "00000402 000100FF FFFFF001"),
    (MemRead(7, 0x1234, 0xFF, 1, 0xFFFFFFFC, 1), "",
     "00700801 1234FF0F FFFFFFFC"),
    (MemRead(1, 0x1234, 9, 32, 0x100000000, 0), "",
     "20100020 123409FF 00000001 00000000"),
    (MemWrite(0, 0x1234, 1, 0x44, 0), "DEADBEEF",
     "40000001 1234000F 00000044 DEADBEEF"),
    (MemWrite(2, 0x1234, 2, 0x8000000000000008, 1), "0001020304050607",
     "60200802 123400FF 80000000 00000008 00010203 04050607"),
    (Cpl(3, 0x0A0B, 4, 0xABC, 0x0C0D, 0x1F, 0x7F), "",
     "0A300000 0A0B8ABC 0C0D1F7F"),
    (CplData(0, 0x0A0B, 1, 0xFFF, 0x0C0D, 0x80, 0x40), "01020304",
     "4A000001 0A0B0FFF 0C0D8040 01020304"),
    (Inv(6, 0x0F0E, 31, 0xD00D, 0x123456789ABCD000, 1), "",
     "72600002 0F0E1F01 D00D0000 00000000 12345678 9ABCD800"),
    (Ic(4, 0x0F0E, 0xD00D, 7, 0x00000001), "",
     "32400000 0F0E0002 D00D0007 00000001"),
    (Prq(0, 0x0F0E, 0xFFFFFFFFFFFFF000, 511, 0, 1, 0), "",
     "30000000 0F0E0004 FFFFFFFF FFFFFFFA"),
    (Prs(0, 0x0F0E, 0xD00D, 15, 0x101), "",
     "32000000 0F0E0005 D00DF101 00000000"),
    # The same with Attr.
    (Tr(5, 0xBEEF, 0xA7, 32, 0xFEDCBA9876543000, 1, attr=Attr(1, 0, 0)), "",
     "20540420 BEEFA7FF FEDCBA98 76543001"),
    (Tr(0, 1, 0, 2, 0xFFFFF000, 1, attr=Attr(0, 1, 0)), "",
     "00002402 000100FF FFFFF001"),
    (MemRead(7, 0x1234, 0xFF, 1, 0xFFFFFFFC, 1, attr=Attr(0, 0, 1)), "",
     "00701801 1234FF0F FFFFFFFC"),
    (MemRead(1, 0x1234, 9, 32, 0x100000000, 0, attr=Attr(1, 1, 1)), "",
     "20143020 123409FF 00000001 00000000"),
    (MemWrite(0, 0x1234, 1, 0x44, 0, attr=Attr(0, 1, 1)), "DEADBEEF",
     "40003001 1234000F 00000044 DEADBEEF"),
    (MemWrite(2, 0x1234, 2, 0x8000000000000008, 1, attr=Attr(1, 1, 0)),
     "0001020304050607",
     "60242802 123400FF 80000000 00000008 00010203 04050607"),
    (Cpl(3, 0x0A0B, 4, 0xABC, 0x0C0D, 0x1F, 0x7F, attr=Attr(1, 0, 1)), "",
     "0A341000 0A0B8ABC 0C0D1F7F"),
    (CplData(0, 0x0A0B, 1, 0xFFF, 0x0C0D, 0x80, 0x40, attr=Attr(0, 1, 0)),
     "01020304", "4A002001 0A0B0FFF 0C0D8040 01020304"),
    (Inv(6, 0x0F0E, 31, 0xD00D, 0x123456789ABCD000, 1, attr=Attr(1, 1, 1)),
     "", "72643002 0F0E1F01 D00D0000 00000000 12345678 9ABCD800"),
    (Ic(4, 0x0F0E, 0xD00D, 7, 0x00000001, attr=Attr(0, 1, 0)), "",
     "32402000 0F0E0002 D00D0007 00000001"),
    (Prq(0, 0x0F0E, 0xFFFFFFFFFFFFF000, 511, 0, 1, 0, attr=Attr(0, 1, 0)),
     "", "30002000 0F0E0004 FFFFFFFF FFFFFFFA"),
    (Prs(0, 0x0F0E, 0xD00D, 15, 0x101, attr=Attr(1, 0, 0)), "",
     "32040000 0F0E0005 D00DF101 00000000"),
)


def by_hand():
    """Each worked packet both ways, and the room it needs."""
    for fields, payload, text in BY_HAND:
        data, packet = bytes.fromhex(payload), bytes.fromhex(text)
        same("write", write(fields, data, len(packet)), packet)
        same("room", write(fields, data, len(packet) - 1), 17)
        same("read", read(packet), fields)
        same("payload", packets.payload_of(fields, packet), data)


def over_long():
    """More than 144 bytes, which no line of hex can bring to the reader."""
    for first in ("40000022 0100000F", "4A000022 01000000",
                  "FF000000 00000000", "72000021 01000003"):
        for count in (145, 148, 1000):
            same("over", read(bytes.fromhex(first) + bytes(count - 8)), 1)
    same("empty", read(b""), 1)
    record = MemWrite(0, 0, 0, 0, 0)
    same("1024 DWORDs", write(record, bytes(4096), 0), 4)
    same("1024 DWORDs, short", write(record, bytes(4095), 9999), 12)


def form_of(fields, packet):
    """The row of the masks for a packet that was read."""
    for form in samples.FORMS:
        kind = samples.KIND[form]
        if kind == records.NAMES[records.code_of(fields)]:
            if form[-2:] not in ("32", "64"):
                return form
            if form.endswith("64") == bool(packet[0] & 0x20):
                return form
    raise AssertionError("no form")


def round_trips():
    """Write then read, read then write, for all forms."""
    rng = Rng(77)
    for form in samples.FORMS:
        for _ in range(150):
            fields = samples.ordered(rng, samples.fields(rng, form))
            data = samples.payload(rng, fields)
            packet = write(fields, data, 144)
            same("written", read(packet), fields)
            same("its payload", packets.payload_of(fields, packet), data)
            noise = rng.pick((b"\xFF" * 144, rng.data(144)))
            noisy = masks.with_ignored(form, packet, noise)
            same("ignored", read(noisy), fields)
            same("cleared", masks.without_ignored(form, noisy), packet)
    for _, line, _ in cases_reading.cases(rng):
        got = listing.read_line(line)
        if not isinstance(got, int):
            fields, packet = got
            again = write(fields, packets.payload_of(fields, packet),
                          len(packet))
            same("read, written", again,
                 masks.without_ignored(form_of(fields, packet), packet))
    for _, line, _ in cases_writing.cases(rng):
        fields, room, data = records.unpack(bytes.fromhex(line.decode()))
        packet = write(fields, data, room)
        if not isinstance(packet, int):
            same("written, read", read(packet), fields)
            same("data back", packets.payload_of(fields, packet), data)
            same("nothing unnamed", masks.without_ignored(
                form_of(fields, packet), packet), packet)


def attr_kept():
    """Each Attr bit changes what is read just there, and is kept."""
    same("codes", [attr.code() for attr in ATTRS], list(range(8)))
    same("none", NO_ATTR, Attr(0, 0, 0))
    rng = Rng(78)
    for form in samples.FORMS:
        for _ in range(40):
            packet = samples.noisy(rng, form)
            fields = read(packet)
            data = packets.payload_of(fields, packet)
            for at, mask, name in ((1, 0x04, "id_based"), (2, 0x20, "relaxed"),
                                   (2, 0x10, "no_snoop")):
                turned = samples.poke(packet, at, mask,
                                      ~packet[at] & mask)
                other = 1 - getattr(fields.attr, name)
                want = replace(fields, attr=replace(fields.attr,
                                                    **{name: other}))
                same("just Attr", read(turned), want)
                same("payload", packets.payload_of(want, turned), data)
                again = write(want, data, 144)
                same("kept", again, masks.without_ignored(form, turned))
                same("back", read(again), want)
                record = records.pack(want, 144, data)
                same("record", records.unpack(record), (want, 144, data))
                same("its byte", record[2], masks.attr_code(turned))
                same("listed", listing.row(1, turned.hex().encode()),
                     listing.row(1, packet.hex().encode()))
            for code, attr in enumerate(ATTRS):
                same("each", read(masks.with_attr(packet, code)),
                     replace(fields, attr=attr))
        for packet in cases_reading.forbidden(rng, form):
            for code in range(8):
                same("forbidden", read(masks.with_attr(packet, code)), 4)
    for value in (8, 16, 0x80, 255):
        try:
            records.unpack(bytes([8, 0, value]) + bytes(9))
            same("taken", True, False)
        except ValueError:
            same("no Attr", True, True)


def attr_caught():
    """The test of the packet layer catches readers and writers of Attr."""
    lines = []
    for letter, cases in ((b"R", cases_reading.cases(Rng(2))),
                          (b"W", cases_writing.cases(Rng(3)))):
        lines += [letter + line for _, line, want in cases if want == "ok"]

    def answer_to(line):
        try:
            return drivers.packet_layer(line)
        except AssertionError:  # what was read cannot be written
            return None

    right = [answer_to(line) for line in lines]
    for name, sentence, where, text in wrong_cards.written(
            wrong_cards.LAYER):
        with caught.changed(where, text):
            found = [line for line, answer in zip(lines, right)
                     if answer_to(line) != answer]
        same("caught by %d lines: %s: %s" % (len(found), name, sentence),
             len(found) >= caught.WANTED, True)


def lent_buffers():
    """What the writing test shows of the buffer."""
    same("lent", drivers.lent(253)[:3].hex() + drivers.lent(253)[249:].hex(),
         "fffefd" + "0605fffe")
    prs = b"0800000F0E%04XD00D0F0101"
    packet = "320000000F0E0005D00DF10100000000"
    same("exact", drivers.writing(prs % 16), packet + "\t")
    same("larger", drivers.writing(prs % 19), packet + "\tEFEEED")
    same("short", drivers.writing(prs % 15),
         "BAD\t17\tFFFEFDFCFBFAF9F8F7F6F5F4F3F2F1")
    same("none", drivers.writing(prs % 0), "BAD\t17\t")
    same("Attr", drivers.writing(b"0800050F0E0010D00D0F0101"),
         "320410000F0E0005D00DF10100000000\t")
    same("Attr read", drivers.reading(b"328F3C030F0EFF05D00DFF01FFFFFFFF"),
         "0800070F0E0010D00D0F0101\t320430000F0E0005D00DF10100000000")
    same("TC", drivers.writing(b"0801070F0E0002D00D0F0101"), "BAD\t4\tFFFE")
    buffer = bytearray(b"abcd" * 5)
    got = packets.write_into(BY_HAND[0][0], b"", buffer)
    same("written into", buffer, bytearray(got + b"abcd"))


def lines():
    """Where lines begin and end."""
    def rows(data, block=5):
        return list(listing.lines(io.BytesIO(data), block))
    same("nothing", rows(b""), [])
    same("one empty", rows(b"\n"), [b""])
    same("no end", rows(b"a\n\r\n\nbc"), [b"a", b"\r", b"", b"bc"])
    same("cut", rows(b"x" * 100000 + b"\ny", 999), [b"x" * 289, b"y"])
    same("too long", listing.unhex(b"G" * 289), 1)
    same("not hex", listing.unhex(b"G" * 288), 0)
    same("odd", listing.unhex(b"0" * 287), 0)
    same("whole", listing.unhex(b"0" * 288), bytes(144))
    same("size line", drivers.sizes(b"0000000000002C05"),
         "0000000000002000\t13\t1101")


# --- the Function ---------------------------------------------------------

US, AGENT = 0x0100, 0x0008


def ready(stu=0, rcb=64):
    """A Function that is enabled."""
    f = Function()
    same("reset", f.reset(US, stu, rcb), Outcome("done"))
    same("enable", f.enable(), Outcome("done"))
    return f


def reply(f, tag, words, count=None, lower=None):
    """Translations for a TR; ending at the RCB unless told otherwise."""
    data = b"".join(word.to_bytes(8, "big") for word in words)
    count = len(data) if count is None else count
    lower = -len(data) % f.rcb if lower is None else lower
    fields = CplData(0, AGENT, len(data) // 4, count, f.id, tag, lower)
    got = f.receive(write(fields, data, 144))
    return got if isinstance(got, int) else got.answer


def give(f, fields, payload=b""):
    """Receive a packet of these fields."""
    got = f.receive(write(fields, payload, 144))
    return got if isinstance(got, int) else got.answer


def cached(f, address, *words):
    """Ask for units and fill them."""
    tag = f.ask(address, len(words), 0, 200).number
    same("filled", reply(f, tag, words), "filled")


def inv(f, itag, body, sender=AGENT):
    """Receive an Invalidate Request."""
    return give(f, Inv(0, sender, itag, f.id, body & ~0xFFF, body >> 11 & 1))


def entries(f):
    """The slots in use, by slot."""
    return {slot: e for slot, e in enumerate(f.slots) if e}


def units(f):
    """The cached units, ascending."""
    return sorted(e.unit for e in f.slots if e)


def function_examples():
    """Examples 3, 4, 5, 7, 8 and 9."""
    f = ready(stu=1)
    cached(f, 0, 0x80803, 0x90803, 0xA0803)
    same("3 before", units(f), [0, 0x2000, 0x4000])
    same("3", inv(f, 0, 0x3000), "done")
    same("3 after", units(f), [0, 0x4000])

    f = ready()
    got = f.ask(0x203000, 1, 0, 12)
    same("4 ask", got, Outcome("tag", 0, bytes.fromhex(
        "00000402 010000FF 00203000")))
    same("4 reply", reply(f, 0, [0x400FF803]), "filled")
    same("4 entry", entries(f), {0: Entry(0x203000, 0x40003000, 1, 1, 0, 0)})
    same("4 beside", f.read(0x204000, 1, b"", 200), 13)
    same("4 read", f.read(0x203000, 1, b"", 200).packet.hex(),
         "000008010100000f40003000")

    f = ready(stu=2)
    f.ask(0x00000FFFFFFFC000, 2, 0, 200)
    f.ask(0x00000FFFFFFFC000, 1, 0, 200)
    same("5", inv(f, 0, 0x0000100000001800), "done")
    same("5 stale", [f.tags[0].stale, f.tags[1].stale], [True, False])
    same("5 reply", reply(f, 0, [0x41803, 0x81803]), "discarded")
    same("5 nothing", units(f), [])

    f = ready()
    f.pages_on(1)
    same("7", f.page_request(0x203000, 3, 1, 0, 1, 16), Outcome(
        "done", packet=bytes.fromhex("30000000 01000004 00000000 0020301D")))

    for stu in (0, 5, 31):
        f = ready(stu)
        last = (1 << 64) - (4096 << stu)
        same("8 one", f.ask(last, 1, 0, 16).answer, "tag")
        same("8 two", f.ask(last, 2, 0, 16), 12)
        same("8 two before", f.ask(last - 1, 2, 0, 16).answer, "tag")

    f = ready()
    same("9", f.ask(0, 9, 0, 200), 12)
    same("9 all", [f.ask(0, 8, 0, 200).number for _ in range(32)],
         list(range(32)))
    same("9 33rd", f.ask(0, 1, 0, 200), 11)


def new_and_reset():
    """What a new Function is, and what a reset takes."""
    f = Function()
    same("new", vars(f), vars(Function()))
    same("new id", (f.id, f.stu, f.rcb, f.enabled, f.agent, f.hand),
         (0, 0, 64, False, None, 0))
    same("new is reset", f.reset(0, 0, 64), Outcome("done"))
    same("new is reset, state", vars(f), vars(Function()))
    f = ready(rcb=128)
    cached(f, 0x5000, 0x9003)
    f.ask(0, 1, 0, 200)
    f.pages_on(7)
    inv(f, 3, 0x7000)
    before = vars(f.copy())
    for bad in ((0, 32, 64), (0, 255, 64), (0, 0, 0), (0, 0, 65), (0, 0, 63),
                (0, 0, 192), (0, 32, 0), (1 << 16, 0, 64)):
        same("bad reset", f.reset(*bad), 12)
        same("bad reset, state", vars(f), before)
    same("good reset", f.reset(0xFFFF, 31, 128), Outcome("done"))
    fresh = Function()
    fresh.id, fresh.stu, fresh.rcb = 0xFFFF, 31, 128
    same("good reset, state", vars(f), vars(fresh))


def switches():
    """Enable and disable."""
    f = ready()
    cached(f, 0x5000, 0x9003)
    f.ask(0x6000, 1, 0, 200)
    before = vars(f.copy())
    f.enable()
    same("enable again", vars(f), before)
    f.disable()
    f.disable()
    same("entries stay", units(f), [0x5000])
    same("TR stays", f.tags[0], OpenTr(0x6000, 1))
    same("E clear", f.read(0x5000, 1, b"", 200), 6)
    f.hand = 9
    f.enable()
    same("emptied", (units(f), f.tags[0].stale, f.hand), ([], True, 9))
    same("stale", reply(f, 0, [0x9003]), "discarded")
    f.ask(0x6000, 1, 0, 200)
    same("switched off", give(f, Cpl(0, 0, 1, 0, US, 0, 0)), "switched off")
    same("E", f.enabled, False)


def fills():
    """Slots, the hand, large pages, R = W = 0, U."""
    f = ready()
    for i in range(4):
        cached(f, 0x8000 * i, *[0x100000 + 0x1000 * k + 3 for k in range(8)])
    same("32 units", [e.unit for e in f.slots],
         [0x1000 * i for i in range(32)])
    same("hand unused", f.hand, 0)
    cached(f, 0x3000, 0xFF000 | 1)
    same("same unit", f.slots[3], Entry(0x3000, 0xFF000, 1, 0, 0, 0))
    same("hand unused yet", f.hand, 0)
    cached(f, 0x40000, 0x9003)
    same("hand", (f.slots[0].unit, f.hand), (0x40000, 1))
    f.hand = (1 << 32) - 1
    cached(f, 0x41000, 0x9003, 0xA003)
    same("hand passes to 0", (f.slots[31].unit, f.slots[0].unit, f.hand),
         (0x41000, 0x42000, 1))
    inv(f, 0, 0x6000)
    inv(f, 1, 0x5000)
    cached(f, 0x43000, 0x9003)
    same("lowest free", (f.slots[5].unit, f.slots[6], f.hand),
         (0x43000, None, 1))

    f = ready(stu=1)
    f.ask(0x6FFF, 3, 1, 200)                # 6000h, 8000h, A000h
    # 16 KiB regions from 4000h: the second one holds 8000h and A000h.
    same("two regions", reply(f, 0, [0x51C01, 0x61802]), "filled")
    same("units", entries(f), {
        0: Entry(0x6000, 0x52000, 1, 0, 1, 0),
        1: Entry(0x8000, 0x60000, 0, 1, 0, 0),
        2: Entry(0xA000, 0x62000, 0, 1, 0, 0)})
    f.ask(0x6000, 2, 0, 200)
    same("hole", reply(f, 0, [0x70800, 0x80C05]), "filled")
    same("hole deletes", entries(f), {
        1: Entry(0x8000, 0, 1, 0, 1, 1),
        2: Entry(0xA000, 0x62000, 0, 1, 0, 0)})
    f.ask(0x6000, 1, 0, 200)
    same("all there is", reply(f, 0, [0x7FFFFFFFFFFFF803]), "filled")
    same("to itself", f.slots[0], Entry(0x6000, 0x6000, 1, 1, 0, 0))


def two_packets():
    """First and second packets and what is remembered between them."""
    f = ready()
    f.ask(0x5678, 3, 0, 200)
    same("greater, off", reply(f, 0, [0x9003], 16, 0), 8)
    same("not of 8", reply(f, 0, [0x9003], 12), 8)
    same("above 8N", reply(f, 0, [0x9003], 32), 8)
    same("below", reply(f, 0, [0x9003, 0xA003], 8), 8)
    same("untouched", f.tags[0], OpenTr(0x5678, 3))
    same("first", reply(f, 0, [0x9003, 0xA000], 24), "more")
    same("kept", f.tags[0], OpenTr(0x5678, 3, False, 12, 2, 8))
    same("in", units(f), [0x5000])
    same("other size", reply(f, 0, [0xA803], lower=0), 8)
    same("Lower Address", reply(f, 0, [0xA003], lower=64), 8)
    same("too many", reply(f, 0, [0xA003, 0xA003], lower=0), 8)
    same("count", reply(f, 0, [0xA003], 16, 0), 8)
    same("second", reply(f, 0, [0xB003], lower=0), "filled")
    same("both in", entries(f), {0: Entry(0x5000, 0x9000, 1, 1, 0, 0),
                                 1: Entry(0x7000, 0xB000, 1, 1, 0, 0)})
    same("freed", f.tags[0], None)
    f.ask(0x5000, 2, 0, 200)
    same("only, off", reply(f, 0, [0xFFFFFFFFFFFFF803], lower=0), "discarded")
    same("freed too", f.tags[0], None)
    f.ask(0x5000, 2, 0, 200)
    same("no size", reply(f, 0, [0xFFFFFFFFFFFFF803]), 8)
    same("8 KiB at 4000h ends at 6000h", reply(f, 0, [0x8803], 16), "more")
    f.disable()
    same("aborted", give(f, Cpl(0, 0, 4, 0, US, 0, 0)), "aborted")
    same("first stays", f.slots[0], Entry(0x5000, 0x9000, 1, 1, 0, 0))
    f = ready(stu=1)
    f.ask(0x5000, 2, 0, 200)
    same("below the unit", reply(f, 0, [0x9003]), 8)
    same("past the range", reply(f, 0, [0x9803, 0x9803]), 8)


def reads_and_itags():
    """Reads, what INV notes, drains."""
    f = ready()
    cached(f, 0x5000, 0x9003, 0xA007)
    same("read", f.read(0x5FF8, 2, b"", 12).packet.hex(),
         "00000802010000ff00009ff8")
    same("U", f.read(0x6010, 1, b"", 12).packet.hex(),
         "000000010100010f00006010")
    same("write", f.write(0x5000, 1, b"abcd", 16).packet.hex(),
         "400008010100000f0000900061626364")
    same("tags", f.tags[:3], [OpenRead(0x5FF8, 8, 8, 1),
                              OpenRead(0x6010, 4, 4, 0), None])
    same("sent address", inv(f, 1, 0x9000), "done")
    same("asked address", inv(f, 2, 0x5000), "done")
    same("AT 00", inv(f, 3, 0x6000), "done")
    same("twice", inv(f, 2, 0x5000), 9)
    same("other agent", inv(f, 2, 0x5000, AGENT + 1), 10)
    same("noted", f.tags[0], OpenRead(0x5FF8, 8, 8, 1, frozenset([2])))
    same("none noted", f.tags[1].itags, frozenset())
    same("short", f.drain(15), 17)
    same("drain", f.drain(16), Outcome("count", 2, bytes.fromhex(
        "32000000 01000002 00080001 0000000A")))
    same("held", f.drain(0), Outcome("count", 0))
    data = CplData(0, 0, 1, 8, US, 0, 0x7C)
    same("part", f.receive(write(data, b"1234", 144)),
         Outcome("payload, more", payload=b"1234"))
    same("due", f.tags[0], OpenRead(0x5FF8, 8, 4, 1, frozenset([2])))
    same("old count", f.receive(write(data, b"1234", 144)), 8)
    same("still held", f.drain(16), Outcome("count", 0))
    data = CplData(0, 0, 1, 4, US, 0, 0)
    same("rest", f.receive(write(data, b"5678", 144)),
         Outcome("payload, last", payload=b"5678"))
    same("at last", f.drain(16).packet[12:], bytes.fromhex("00000004"))
    same("read failed", give(f, Cpl(0, 0, 1, 0, US, 1, 0)), "read failed")
    same("E stays", f.enabled, True)
    same("no tag", give(f, Cpl(0, 0, 1, 0, US, 1, 0)), 7)
    same("tag 32", give(f, Cpl(0, 0, 1, 0, US, 32, 0)), 7)


def page_groups():
    """Credits, groups, responses."""
    f = Function()
    f.reset(US, 0, 64)

    def ask(index, l):
        got = f.page_request(0x1000, index, l, 0, 1, 16)
        return got if isinstance(got, int) else got.answer

    def answer(index, code):
        return give(f, Prs(0, AGENT, US, code, index))

    same("off", (ask(0, 1), answer(0, 0), answer(0, 15)), (15, 7, 7))
    same("on", (f.pages_on(0), f.pages_on(513), f.pages_on(3),
                f.pages_on(3)), (12, 12, Outcome("done"), 12))
    same("asks", (ask(4, 0), ask(4, 1), ask(4, 0), ask(5, 0), ask(6, 0)),
         ("done", "done", 16, "done", 16))
    same("groups", f.groups[4:7], [Group(2, True), Group(1, False), Group()])
    same("answers", (answer(5, 0), answer(6, 0), answer(32, 1),
                     answer(4, 1)), (7, 7, 7, "done"))
    same("credits", (f.credits, f.groups[4]), (2, Group()))
    same("R = W = 0", f.page_request(0x1000, 0, 1, 0, 0, 16), 12)
    same("not a page", f.page_request(0x1800, 0, 1, 0, 1, 16), 12)
    same("index", f.page_request(0x1000, 32, 1, 0, 1, 16), 12)
    f.pages_off()
    same("off again", (f.pages, f.groups), (OFF, [Group()] * 32))
    f.pages_on(1)
    same("whole", (f.pages, f.credits), (ON, 1))
    same("failure", (answer(511, 2), f.pages), ("done", STOPPED))
    f.pages_off()
    same("stopped", (f.pages, f.pages_on(1), f.pages_on(0), ask(0, 1),
                     answer(0, 0)), (STOPPED, 15, 15, 15, 7))
    f.reset(US, 0, 64)
    same("after reset", (f.pages, f.pages_on(1)), (OFF, Outcome("done")))


def rich():
    """A Function with something in every table."""
    f = ready(stu=1, rcb=128)
    cached(f, 0x2000, 0x90C03)
    cached(f, 0xC000, 0x70807)
    f.read(0x3FFC, 1, b"", 200)
    f.ask(0x5FFF, 3, 0, 200)
    same("first", reply(f, 1, [0x80800], 24), "more")
    same("inv", inv(f, 4, 0x2000), "done")
    f.pages_on(5)
    f.page_request(0x7000, 2, 1, 0, 1, 200)
    return f


STATE = ("0100 01 80 01 01 0008 00000000"
         "00 01 000000000000C000 0000000000000000 0B" + "00" * 30
         + "02 0000000000003FFC 0004 0004 01 00000010"
         "01 0000000000005FFF 03 00 0D 01 0010" + "00" * 30
         + "00000010 01 0005 0004 000000 000000 000101" + "000000" * 29)


def script_form():
    """Records, answer lines, the bytes of the state."""
    same("new state", calls.state(Function()).hex(),
         "00000040" + "00" * 8 + "00" * 64 + "00" * 5)
    same("state", calls.state(rich()), bytes.fromhex(STATE))
    for data, want in ((b"", "00000000"), (b"\0", "00000001"),
                       (b"\0\0", "00000102"), (b"\xFF", "00000100"),
                       (b"\xFF" * 4, "04060405")):
        same("digest", calls.digest(data), want)
    same("record", calls.record("ask", 200, 0x203000, 1, 1).hex(),
         "0300c80000000000203000000101")
    same("parse", calls.parse(bytes.fromhex(
        "05000C 0000000000005000 0001 01020304")), (
            "write", {"room": 12, "address": 0x5000, "words": 1},
            b"\1\2\3\4"))
    for text in ("", "0B", "0101", "0300C8", "0700", "070000FF",
                 "0300C80000000000203000000102", "06" + "00" * 256,
                 "0A00C800000000000000000000" + "08"):
        try:
            calls.parse(bytes.fromhex(text))
            same("taken " + text, True, False)
        except ValueError:
            same("not a record", True, True)
    script = calls.Script()
    script.function = rich()
    after = rich()
    after.slots[1] = Entry(0xC000, 0x8000, 1, 1, 0, 0)
    script.function.slots[1] = after.slots[1]
    line = calls.record("write", 30, 0xC000, 1, rest=b"\x00\xA5\x01\xA5")
    same("trailing A5h", script.run(line), "D\t16\t"
         "400008010100000F0000800000A501\t\t"
         + calls.digest(calls.state(after)))
    line = calls.record("write", 15, 0xC000, 1, rest=b"\x00\xA5\x01\xA5")
    same("refused", script.run(line).split("\t")[:4], ["R17", "0", "", ""])
    same("show", script.answer(b"0F"), calls.state(after).hex().upper())
    same("driver", drivers.DRIVERS["calls"](b"0700C8"),
         "C0\t0\t\t\t" + calls.digest(calls.state(Function())))
    unreadable(script, (b"0f", b"0F ", b" 0F", b"", b"0", b"0G"))


def attr_decides_nothing():
    """Packets that differ in Attr alone do the same in every script."""
    card = Function()
    for line, _ in cases_calls.cases(Rng(generate.SEED)):
        name, fields, rest = calls.parse(bytes.fromhex(line.decode()))
        if name == "show":
            continue
        before = card.copy()
        outcome = calls.run(card, name, fields, rest)
        if not isinstance(outcome, int) and outcome.packet:
            same("sent", masks.attr_code(outcome.packet), 0)
        if name != "receive" or len(rest) < packets.SHORTEST:
            continue
        for turned in (1, 2, 4, 7):
            other = before.copy()
            packet = masks.with_attr(rest, masks.attr_code(rest) ^ turned)
            same("answer", other.receive(packet), outcome)
            same("state", vars(other), vars(card))


def attr_counts():
    """What the generator asks of Attr."""
    same("no packet yet", len(list(reached_attr.Layer().faults())), 2 * 96)
    same("no call yet", len(list(reached_attr.Received().faults())),
         8 * (len(reached_attr.TAKEN) + len(reached_attr.SENT)))
    packet = write(BY_HAND[-1][0], b"", 16)
    both = [masks.with_attr(packet, code) for code in range(8)]
    same("unshown", reached_attr.unshown(both, ["1\tPRS\tx"] * 8), {"PRS"})
    same("not all", reached_attr.unshown(both[1:], ["1\tPRS\tx"] * 7), set())
    for what in (lambda: reached_attr.unshown(
                     both, ["1\tPRS\tx"] * 7 + ["1\tPRS\ty"]),
                 lambda: reached_attr.sent_clear(both[1]),
                 lambda: reached_attr.Layer().add(
                     "writing", b"08000000" + b"00" * 8,
                     both[2].hex().upper() + "\t")):
        try:
            what()
            same("not noticed", True, False)
        except AssertionError:
            same("noticed", True, True)
    reached_attr.sent_clear(both[0])


def refusals():
    """No refused call changes anything; the fixed scripts."""
    script = calls.Script()
    for title, steps in cases_calls.FIXED:
        for step in steps:
            before = script.function.copy()
            text = scripts_calls.check(script, title, step)
            if text[0] == "R":
                same(title, vars(script.function), vars(before))
                same(title, text.split("\t")[1:4], ["0", "", ""])
    f = rich()
    before = f.copy()
    f.disable()
    f.reset(1, 1, 64)
    same("a copy is another", vars(before), vars(rich()))


def wrong():
    """The script catches every wrong card, and the right one is right."""
    lines = [line for line, _ in cases_calls.cases(Rng(generate.SEED))]
    long_run = [line for line, _ in cases_calls.long_run()]
    results = caught.all_cards(lines, long_run)
    for name, sentence, places in results:
        wanted = caught.wanted(name)
        same("caught by %d lines: %s: %s" % (len(places), name, sentence),
             len(places) >= wanted, True)
    same("cards", len(results) >= 900, True)
    same("the right card", caught.catches(
        "drain", wrong_cards.METHODS["drain"], caught.PLAYED["calls"]), [])
    print("wrong cards: %d, each caught by %d lines or more but for %d"
          % (len(results), caught.WANTED, len(wrong_cards.ONCE)))


def rows():
    """The rows and columns of the table of calls."""
    f = rich()
    for text, want in (("0A000000 00080004 01000000", "CPL for read"),
                       ("4A000000 00080004 01000100", "CPL for TR"),
                       ("0A000000 00080004 01000200", "CPL, no tag"),
                       ("0A000000 00080004 01002000", "CPL, no tag"),
                       ("0A000000 00080004 010000", "other"),
                       ("72000002 00080501 01000000", "INV"),
                       ("72000002 00080502 01000000", "other"),
                       ("32000000 00080005 01000000", "PRS"),
                       ("32000000 00080002 01000000", "other"), ("", "other")):
        same("row", reached.row_of(f, "receive", bytes.fromhex(text)), want)
    same("columns", [reached.cell_of(a) for a in ("R12", "T31", "C0", "C10",
                                                  "D", "X")],
         ["12", "T", "C0", "C", "D", "X"])
    same("rows", list(reached.REACHABLE), [row for row in reached.REACHABLE
                                           if row in reached.SITUATIONS])
    roles, order = reached_roles.Roles(), reached_order.Order()
    same("no role yet", len(list(roles.faults())),
         32 * len(reached_roles.ROLES) + len(reached_roles.HAND_PASSES)
         + len(reached_roles.DRAINS) + 1)
    same("no pair yet", len(list(order.faults())), len(order.pairs))
    same("pairs", (reached_order.pairs_of("pages on"),
                   len(reached_order.pairs_of("read")),
                   ("13", "14") in reached_order.pairs_of("read")),
         ([("15", "12")], 14, False))


# --- the host -------------------------------------------------------------

HOST = 0xABCD


def tables(count, **entries):
    """So many tables with these entries, by names like t1_5."""
    table = [0] * (512 * count)
    for name, value in entries.items():
        number, index = name[1:].split("_")
        table[512 * int(number) + int(index)] = value
    return table


# Root entry 3, then 4, 5, 6: address 3 << 39 | 4 << 30 | 5 << 21 | 6 << 12.
PATH = tables(4, t0_3=0x1003, t1_4=0x2003, t2_5=0x3003,
              t3_6=0x000123456789A003)
# As it is, but for the last entry of each size, and all bits without a name.
NOISY = tables(4, t0_3=0xFFF0000000001FFF, t1_4=0xFFF0000000002F7F,
               t2_5=0xFFF0000000003F7F, t3_6=0xFFFFFFFFFFFFFFFF)
GIB = tables(2, t0_3=0x1003, t1_4=0xABCDEFEDCBA98F83)
MIB = tables(3, t0_3=0x1003, t1_4=0x2003, t2_5=0xABCDEFEDCBA98F83)
AT = "00000181 00A06000"
WIDE = "20000402 010005FF " + AT
WIDE_NO_WRITE = "20500420 BEEFA7FF 00000181 00A06001"
# From the root's entry 0 on: 00A06000h is of 32 bits.
LOW = tables(4, t0_0=0x3002, t3_0=0x1003, t1_5=0x2003, t2_6=0x7006)
T, S = "translation", "status"

# Table, packet, room, then the refusal, or what is sent and what was read.
HOST_BY_HAND = (
    (PATH, WIDE, 20, T, "4A000002 ABCD0008 01000578 00012345 6789A003",
     ((0, 3), (1, 4), (2, 5), (3, 6))),
    (PATH, WIDE_NO_WRITE, 64, T,
     "4A500002 ABCD0008 BEEFA778 00012345 6789A001",
     ((0, 3), (1, 4), (2, 5), (3, 6))),
    (NOISY, WIDE, 20, T, "4A000002 ABCD0008 01000578 000FFFFF FFFFF003",
     ((0, 3), (1, 4), (2, 5), (3, 6))),
    # Bits 51:30 of ABCDEFEDCBA98F83h are DEFEDC0000000h.
    (GIB, WIDE, 20, T, "4A000002 ABCD0008 01000578 000DEFED DFFFF803",
     ((0, 3), (1, 4))),
    (MIB, WIDE, 20, T, "4A000002 ABCD0008 01000578 000DEFED CBAFF803",
     ((0, 3), (1, 4), (2, 5))),
    (LOW, "00700402 010005FF 00A06000", 20, T,
     "4A700002 ABCD0008 01000578 00000000 00007002",
     ((0, 0), (3, 0), (1, 5), (2, 6))),
    (LOW, "00700402 010005FF 00A06001", 20, T,
     "4A700002 ABCD0008 01000578 00000000 00000000",
     ((0, 0), (3, 0), (1, 5), (2, 6))),
    # Above 48 bits, with nothing lent; below, 12 bytes are enough.
    ([], "20300420 010005FF 00010000 00000000", 20, T,
     "4A300002 ABCD0008 01000578 00000000 00000000", ()),
    ([], "20300420 010005FF 00010000 00000000", 19, 17),
    ([], "20300420 010005FF 0000FFFF FFFFF000", 12, S,
     "0A300000 ABCD8080 01000500", ()),
    ([], "20300420 010005FF 0000FFFF FFFFF000", 11, 17),
    ([], "00300402 010005FF 00000000", 19, S,
     "0A300000 ABCD8008 01000500", ()),
    # Cut inside, at each of the tables.
    (PATH[:511], WIDE, 12, S, "0A000000 ABCD8008 01000500", ()),
    (PATH[:1023], WIDE, 12, S, "0A000000 ABCD8008 01000500", ((0, 3),)),
    (PATH[:1535], WIDE, 12, S, "0A000000 ABCD8008 01000500",
     ((0, 3), (1, 4))),
    (PATH[:2047], WIDE_NO_WRITE, 12, S, "0A500000 ABCD8080 BEEFA700",
     ((0, 3), (1, 4), (2, 5))),
    # Neither right; R above and W below.
    (tables(1, t0_3=0xFFFFFFFFFFFFFFFC), WIDE, 20, T,
     "4A000002 ABCD0008 01000578 00000000 00000000", ((0, 3),)),
    (tables(2, t0_3=0x1001, t1_4=0x2002), WIDE, 20, S,
     "0A000000 ABCD8008 01000500", ((0, 3), (1, 4))),
    (tables(2, t0_3=0x1001, t1_4=0x40000082), WIDE, 20, T,
     "4A000002 ABCD0008 01000578 00000000 00000000", ((0, 3), (1, 4))),
    # The root all the way: its entry 0 leads to itself, bit 7 ends it.
    (tables(1, t0_0=0x0003), "00000402 010005FF 00000000", 20, T,
     "4A000002 ABCD0008 01000578 00000000 00000003", ((0, 0),) * 4),
    (tables(1, t0_0=0x0083), "00000402 010005FF 00000000", 20, T,
     "4A000002 ABCD0008 01000578 00000000 1FFFF803", ((0, 0),) * 2),
    # Refused, in order.
    (PATH, "20000402 010005FF 000181", 64, 1),
    (PATH, "01000402 010005FF 00000181", 64, 2),
    (PATH, "20000402 010005FF 00000181", 64, 1),
    (PATH, "20008402 010005FF " + AT, 64, 3),
    (PATH, "20000403 010005FF " + AT, 0, 4),
    (PATH, "20000002 010005FF " + AT, 0, 2),
    (PATH, "30000000 01000004 00000000 0020301D", 0, 2),
    (PATH, WIDE, 12, 17),
)


def host_by_hand():
    """Walks and replies worked out by hand."""
    for table, text, room, *want in HOST_BY_HAND:
        packet, before = bytes.fromhex(text), list(table)
        got = host.translate(HOST, packet, table, room)
        if len(want) > 1:
            want = [host.Outcome(want[0], bytes.fromhex(want[1]), want[2])]
        same("translated " + text, got, want[0])
        same("table", table, before)
        buffer = drivers.lent(room)
        same("again", host.translate_into(HOST, packet, table, buffer), got)
        sent = b"" if isinstance(got, int) else got.packet
        same("buffer", buffer, sent + drivers.lent(room)[len(sent):])


def walked(table, number, shift, address, wish):
    """The walk told another way: (rights or None, last entry, shift, count).

    wish has the rights that may still be given.
    """
    whole = table[512 * number:512 * number + 512]
    if len(whole) < 512:
        return None, 0, shift, 0
    entry = whole[address // 2 ** shift % 512]
    if entry % 4 == 0:
        return 0, entry, shift, 1
    if shift == 12 or (shift < 39 and entry // 128 % 2 == 1):
        return entry & wish, entry, shift, 1
    rights, last, end, count = walked(
        table, entry % 2 ** 52 // 4096, shift - 9, address, entry & wish)
    return rights, last, end, count + 1


def told(table, request):
    """(size of the page or None for status 100, base, rights, count)."""
    if request.address // 2 ** 48:
        return 12, 0, 0, 0
    rights, entry, shift, count = walked(
        table, 0, 39, request.address, 1 if request.no_write else 3)
    if rights is None:
        return None, 0, 0, count
    if rights == 0:
        return 12, 0, 0, count
    return shift, entry % 2 ** 52 // 2 ** shift * 2 ** shift, rights, count


def check_reply(table, host_id, request, outcome):
    """What the readings name, read back from a reply."""
    shift, base, rights, count = told(table, request)
    same("count", (len(outcome.visits), count <= 4), (count, True))
    fields = read(outcome.packet)
    if shift is None:
        same("aborted", (outcome.sent, fields), ("status", Cpl(
            request.tc, host_id, 4, 4 * request.length, request.sender,
            request.tag, 0)))
        return
    same("replied", (outcome.sent, fields), ("translation", CplData(
        request.tc, host_id, 2, 8, request.sender, request.tag, 120)))
    word = int.from_bytes(packets.payload_of(fields, outcome.packet), "big")
    same("page", (size(word), word & 0x7FF), ((base, shift), rights))
    same("S", word >> 11 & 1, int(shift > 12))
    if request.no_write:
        same("no W", word & 2, 0)
    if rights == 0:
        same("null", word, 0)


def host_script():
    """(table, host's ID, room, packet) of each question of the script."""
    script = drivers.Walks()
    for line, _ in cases_walks.cases(Rng(generate.WALKS_SEED)):
        code, values, packet = walks.parse(line)
        if code == walks.ASK:
            yield script.table, *values, packet
        else:
            script.answer(line)


def host_replies():
    """Every question of the script, against the walk told another way."""
    for table, host_id, room, packet in host_script():
        got = host.translate(host_id, packet, table, room)
        request = read(packet)
        if not isinstance(request, Tr):
            same("refused", got, request if isinstance(request, int) else 2)
            continue
        due = 12 if told(table, request)[0] is None else 20
        if room < due:
            same("short", got, 17)
        else:
            check_reply(table, host_id, request, got)


NAMED_BITS = 0x000FFFFFFFFFF083     # R, W, bit 7, 51:12


def host_depends():
    """Unvisited entries and unnamed bits change nothing; named bits may."""
    rng = Rng(78)
    junk = []
    for at, (table, host_id, _, packet) in enumerate(host_script()):
        if at % 8 or len(packet) > 16 or not isinstance(read(packet), Tr):
            continue
        got = host.translate(host_id, packet, table, 64)
        visited = {512 * number + index for number, index in got.visits}
        if len(table) != len(junk):
            junk = [rng.bits(64) for _ in table]
        other = list(junk)
        for place in visited:
            other[place] = table[place]
        same("not visited", host.translate(host_id, packet, other, 64), got)
        for place in visited:
            other[place] = (table[place] & NAMED_BITS
                            | rng.bits(64) & ~NAMED_BITS)
        same("not named", host.translate(host_id, packet, other, 64), got)
        for code in range(8):
            same("Attr", host.translate(
                host_id, masks.with_attr(packet, code), table, 64), got)
        form = "TR64" if packet[0] else "TR32"
        same("ignored", host.translate(host_id, masks.with_ignored(
            form, packet, rng.data(16)), table, 64), got)


def host_and_function():
    """What the host replies to a Function with STU 0, the Function takes."""
    rng = Rng(80)
    for at, (table, host_id, _, packet) in enumerate(host_script()):
        request = read(packet)
        if at % 4 or not isinstance(request, Tr):
            continue
        f = ready(rcb=rng.pick((64, 128)))
        page = request.address
        cached(f, page, 0x5003)
        units = rng.between(1, min(f.rcb // 8, (2 ** 64 - page) // 4096))
        asked = f.ask(page + rng.bits(12), units, request.no_write, 16)
        got = host.translate(host_id, asked.packet, table, 20)
        shift, base, rights, _ = told(table, request)
        answer, want = "filled", []
        if shift is None:
            answer, want = "aborted", [Entry(page, 0x5000, 1, 1, 0, 0)]
        elif rights:
            # A large page fills all units that were asked for inside it.
            left = (2 ** shift - page % 2 ** shift) // 4096
            want = [Entry(unit, base + unit % 2 ** shift, rights & 1,
                          rights >> 1, 0, 0)
                    for unit in range(page, page + 4096 * min(units, left),
                                      4096)]
        same("answer", f.receive(got.packet).answer, answer)
        same("entries", [slot for slot in f.slots if slot], want)
        same("tags", f.tags, [None] * 32)


def host_total():
    """Any bytes, any table, any room: an outcome or a refusal."""
    rng = Rng(79)
    for _ in range(2000):
        table = [rng.bits(64) for _ in range(rng.pick((0, 3, 512, 600)))]
        packet = rng.pick((samples.noisy(rng, rng.pick(samples.FORMS)),
                           rng.data(rng.below(30)),
                           samples.noisy(rng, "TR64")))
        room = rng.below(30)
        buffer = drivers.lent(room)
        got = host.translate_into(rng.bits(16), packet, table, buffer)
        if isinstance(got, int):
            same("number", got in (1, 2, 3, 4, 17), True)
            same("untouched", buffer, drivers.lent(room))
        else:
            same("room", (len(buffer), len(got.packet) <= room),
                 (room, True))


def walks_form():
    """Records of walks and their answer lines."""
    script = drivers.Walks()
    ask = "03ABCD%04X00000402010005FF00203000"
    for line, want in (
            (ask % 12, "S\t0\t0A000000ABCD800801000500\t"),
            (ask % 14, "S\t0\t0A000000ABCD800801000500\tF3F2"),
            (ask % 2, "BAD\t17\tFFFE"),
            ("010200", "-"),
            (ask % 20, "T\t1\t4A000002ABCD000801000578" + "0" * 16 + "\t"),
            ("0200000000000000000003", "-"),
            ("0200010000000040000083", "-"),
            ("0200030000000080000003", "-"),
            # Root entry 0 three times, then entry 1 and 3 for 203000h.
            (ask % 21, "T\t3\t4A000002ABCD000801000578"
             "00000000400FF803\tEB"),
            ("03ABCD0000", "BAD\t1\t"),
            ("011000", "-"), ("020FFF0000000000000001", "-"),
            ("010000", "-"),
            (ask % 12, "S\t0\t0A000000ABCD800801000500\t")):
        same("line " + line, script.answer(line.encode()), want)
    same("record", walks.record(walks.PUT, 0x123, 0x456).hex(),
         "0201230000000000000456")
    same("driver", drivers.DRIVERS["walks"]((ask % 12).encode()),
         "S\t0\t0A000000ABCD800801000500\t")
    unreadable(script, (
        b"", b"0", b"00", b"04", b"01", b"0100", b"01000000", b"011001",
        b"0200000000000000000003", b"03ABCD", b"03ABCD0041", b"0100 00",
        b"03abcd0000", b"03ABCD0000" + b"00" * 252))


def walks_counted():
    """What the generator asks of the walks."""
    tally = reached_walks.Walks()
    same("nothing yet", len(list(tally.faults())), len(tally.seen))
    packet = bytes.fromhex(WIDE)
    for table, want in (
            (PATH, {"4 KiB, granted RW, No Write 0", "T, count 4"}),
            (GIB, {"1 GiB, granted RW, No Write 0", "bit 7 at level 2"}),
            (PATH[:600], {"missing, level 2", "cut inside, level 2"}),
            ([], {"missing, level 1", "S, count 0"}),
            (tables(1, t0_3=0x3), {"loop to the root, level 2"})):
        got = host.translate(HOST, packet, table, 20)
        seen = set(reached_walks.Walks.answered(
            table, 20, packet, got.sent[0].upper(), len(got.visits),
            got.packet))
        same("situations", seen & want, want)
    for text in ("4A000002 ABCD0008 01000578", "32000000 00080003 01000000",
                 "00000801 0100050F 00203000", "00"):
        packet = bytes.fromhex(text)
        got = read(packet)
        same("refusal", reached_walks.refusal(
            got if isinstance(got, int) else 2, packet) in tally.seen, True)
    for what in (lambda: tally.count("cleared, level 1"),
                 lambda: tally.count_short(20, "T"),
                 lambda: tally.count_short(12, "S")):
        try:
            what()
            same("not noticed", True, False)
        except AssertionError:
            same("noticed", True, True)


def wrong_hosts():
    """The script catches every wrong translator, and not the right one."""
    lines = [line for line, _ in cases_walks.cases(Rng(generate.WALKS_SEED))]
    script = drivers.Walks()
    right = [script.answer(line) for line in lines]
    every = wrong_walks.translators()
    for name, sentence, where, text in every:
        places = wrong_walks.catches(where, text, lines, right, caught.WANTED)
        same("caught by %d lines: %s: %s" % (len(places), name, sentence),
             len(places) >= caught.WANTED, True)
    for where, text in wrong_walks.FUNCTIONS.items():
        same("the right one", wrong_walks.catches(where, text, lines, right),
             [])
    same("by hand", len(wrong_walks.WRITTEN) >= 180, True)
    print("wrong translators: %d, each caught by %d lines or more"
          % (len(every), caught.WANTED))


for part in (examples, by_hand, over_long, round_trips,
             attr_kept, attr_caught, lent_buffers, lines,
             function_examples, new_and_reset, switches, fills, two_packets,
             reads_and_itags, page_groups, script_form, refusals, rows,
             attr_counts, attr_decides_nothing, host_by_hand, host_replies,
             host_depends, host_and_function, host_total, walks_form,
             walks_counted, wrong_hosts, wrong):
    part()
for text in failed[:20]:
    print(text)
print("independent: %d checks, %d failed" % (done, len(failed)))
sys.exit(1 if failed else 0)
