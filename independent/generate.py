"""Write the test files: python3 generate.py DIR

Makes listing, packets (reading, writing and sizes, one after the other),
calls, hand, which is one long run of calls for a new Function, and walks, the
host's; each a .stdin and a .stdout, the same bytes each time. Every case made
to show a certain number is checked to show it; size-codes.tsv is checked row
by row; the fixed scripts of calls are checked step by step, and those walks
whose answer was worked out. Prints how often each number and kind came up and,
for the calls, each number and answer, for the walks, each end and level, and
how often each Attr; exits with 1 if one that can occur never did, or one that
cannot did. Nothing that the Function or the host sends may have an Attr bit,
and no line of the listing may depend on one.
"""

import io
import os
import sys

sys.dont_write_bytecode = True

import calls
import cases_calls
import cases_listing
import cases_reading
import cases_sizes
import cases_walks
import cases_writing
import drivers
import listing
import packets
import reached
import reached_attr
import reached_order
import reached_roles
import reached_walks
import records
import walks
from rng import Rng

SEED = 5                        # of the script of calls
WALKS_SEED = 6                  # of the script of walks
# No forbidden value can be put into an Invalidate Completion.
CANNOT = (("IC", "4"),)
NUMBERS = {"listing": ("ok", "0", "1", "2", "3", "4"),
           "reading": ("ok", "0", "1", "2", "3", "4"),
           "writing": ("ok", "12", "4", "17")}
# In and out, in thousand bytes.
LARGEST = {"listing": (400, 400), "packets": (750, 1200),
           "calls": (650, 900), "hand": (300, 300), "walks": (900, 600)}


def check(want, got, line):
    """Fail loudly if a case does not show the number it was made to show."""
    if want is not None and str(want) != got:
        raise AssertionError("wanted %s, got %s: %r" % (want, got, line))


def outcome(answer):
    """The number of a BAD answer, else ok."""
    parts = answer.split("\t")
    return parts[parts.index("BAD") + 1] if "BAD" in parts else "ok"


def make(name, cases, answer, counts, attrs=None):
    """(stdin, stdout) of a test with one answer for each line."""
    asked, answered, seen = [], [], set()
    for kind, line, want in cases:
        if line in seen and name != "listing":
            continue
        seen.add(line)
        text = answer(len(asked) + 1, line)
        got = outcome(text)
        check(want, got, line)
        if got == "ok" and name == "reading":
            kind = records.NAMES[int(text[:2], 16)]
        if got == "ok" and attrs:
            attrs.add(name, line, text)
        counts[name, kind, got] = counts.get((name, kind, got), 0) + 1
        asked.append(line + b"\n")
        answered.append(text.encode("ascii") + b"\n")
    return b"".join(asked), b"".join(answered)


def make_sizes(rng):
    """(stdin, stdout) of the size test, checked against what is known."""
    asked, answered = [], []
    for word, base, log2 in cases_sizes.cases(rng):
        line = b"%016X" % word
        text = drivers.sizes(line)
        flags = "%d%d%d%d" % tuple(word >> bit & 1 for bit in (10, 2, 1, 0))
        want = ("NONE" if base is None
                else "%016X\t%d\t%s" % (base, log2, flags))
        check(want, text, line)
        asked.append(line + b"\n")
        answered.append(text.encode("ascii") + b"\n")
    return b"".join(asked), b"".join(answered)


def check_listing(asked, answered):
    """Every kind and BAD must be listed with each Attr, and all the same."""
    lines = [listing.unhex(line) for line in asked.split(b"\n")]
    whole = [None if isinstance(line, int) or len(line) < packets.SHORTEST
             else line for line in lines]
    rows = answered.decode("ascii").split("\n")[:-1]
    seen = reached_attr.unshown(whole, rows)
    if seen != {"BAD", *listing.NAMES.values()}:
        raise AssertionError("listed with each Attr: only %s" % sorted(seen))


def make_packets(counts, attrs):
    """(stdin, stdout) of the packet layer; a letter begins each line."""
    parts = {
        b"R": make("reading", cases_reading.cases(Rng(2)),
                   lambda _, line: drivers.reading(line), counts, attrs),
        b"W": make("writing", cases_writing.cases(Rng(3)),
                   lambda _, line: drivers.writing(line), counts, attrs),
        b"S": make_sizes(Rng(4))}
    asked = [letter + line for letter, (lines, _) in parts.items()
             for line in lines.split(b"\n")[:-1]]
    answered = b"".join(part for _, part in parts.values())
    again = [drivers.packet_layer(line) for line in asked]
    if again != answered.decode("ascii").split("\n")[:-1]:
        raise AssertionError("a line's letter does not say what it asks")
    return b"".join(line + b"\n" for line in asked), answered


def make_calls(cases, tally=None):
    """(stdin, stdout) of calls, played once more from the lines alone."""
    asked, answered = [], []
    script = calls.Script()
    for line, want in cases:
        before = script.function.copy() if tally else None
        text = script.answer(line)
        check(want, text, line)
        asked.append(line + b"\n")
        answered.append(text.encode("ascii") + b"\n")
        data = bytes.fromhex(line.decode("ascii"))
        if calls.parse(data)[0] == "show":
            continue
        answer, _, sent, *_ = text.split("\t")
        reached_attr.sent_clear(bytes.fromhex(sent))
        if not tally:
            continue
        if answer[0] == "R" and vars(before) != vars(script.function):
            raise AssertionError("refused, but changed: %r" % line)
        tally.add(before, script.function, data, answer)
    return b"".join(asked), b"".join(answered)


def make_walks(cases, tally):
    """(stdin, stdout) of the host; each question is asked with room too."""
    asked, answered = [], []
    script = drivers.Walks()
    for line, want in cases:
        text = script.answer(line)
        check(want, text, line)
        asked.append(line + b"\n")
        answered.append(text.encode("ascii") + b"\n")
        code, values, packet = walks.parse(line)
        if code != walks.ASK:
            continue
        host_id, room = values
        ample = script.answer(walks.line_of(walks.record(
            walks.ASK, host_id, walks.MOST_ROOM, packet=packet)))
        tally.add(script.table, room, packet, text, ample)
        if text[0] in "TS":
            reached_attr.sent_clear(bytes.fromhex(text.split("\t")[2]))
    return b"".join(asked), b"".join(answered)


def show(counts, totals):
    """Print the table; the list of what is missing."""
    missing = []
    for name, numbers in NUMBERS.items():
        print("%-10s%s" % (name, "".join("%7s" % n for n in numbers)))
        for kind in records.NAMES:
            cells = []
            for number in numbers:
                seen = counts.get((name, kind, number), 0)
                possible = (kind, number) not in CANNOT
                if possible and not seen:
                    missing.append((name, kind, number))
                cells.append(str(seen) if seen or possible else "-")
            print("  %-8s%s" % (kind, "".join("%7s" % c for c in cells)))
    for name, (lines, asked, answered) in totals.items():
        print("%-10s%7d lines, %d bytes in, %d bytes out"
              % (name, lines, asked, answered))
    return missing


def main(directory):
    """Write all files; the exit status."""
    counts, files = {}, {}
    attrs = reached_attr.Layer()
    tally = reached.Tally(reached_roles.Roles(), reached_order.Order(),
                          reached_attr.Received())
    files["listing"] = make("listing", cases_listing.cases(Rng(1)),
                            listing.row, counts)
    # The last line of the listing's input has no line feed.
    files["listing"] = files["listing"][0][:-1], files["listing"][1]
    check_listing(*files["listing"])
    files["packets"] = make_packets(counts, attrs)
    files["calls"] = make_calls(cases_calls.cases(Rng(SEED)), tally)
    files["hand"] = make_calls(cases_calls.long_run())
    walked = reached_walks.Walks()
    files["walks"] = make_walks(cases_walks.cases(Rng(WALKS_SEED)), walked)

    # The stream form of the listing must say the same, in blocks of any size.
    for block in (1, 7, 4096):
        got = b"".join(
            listing.row(n, line).encode("ascii") + b"\n" for n, line in
            enumerate(listing.lines(io.BytesIO(files["listing"][0]), block),
                      1))
        if got != files["listing"][1]:
            raise AssertionError("listing depends on how it is read")

    os.makedirs(directory, exist_ok=True)
    totals = {}
    for name, (asked, answered) in files.items():
        for data, suffix, most in zip((asked, answered),
                                      ("stdin", "stdout"), LARGEST[name]):
            if len(data) >= 1000 * most:
                raise AssertionError("%s.%s is too large" % (name, suffix))
            with open(os.path.join(directory, name + "." + suffix),
                      "wb") as out:
                out.write(data)
        totals[name] = answered.count(b"\n"), len(asked), len(answered)
    missing = show(counts, totals)
    print(attrs.line())
    for line in [*tally.table(), *walked.table()]:
        print(line)
    faults = ["never seen: %s, %s, %s" % cell for cell in missing]
    faults += [*attrs.faults(), *tally.faults(), *walked.faults()]
    for line in faults:
        print(line)
    return 1 if faults else 0


if __name__ == "__main__":
    if len(sys.argv) != 2:
        sys.exit("usage: generate.py DIR")
    sys.exit(main(sys.argv[1]))
