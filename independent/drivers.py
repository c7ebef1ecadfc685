"""What each kind of test file asks, one line in, one line out.

    python3 drivers.py packets|calls|walks < stdin > stdout

packets: by the line's first letter, R: a packet in hex -> its field record
(records.py tells the form) and the packet written again; W: a field record ->
the packet and what the lent buffer holds after it; S: an 8-byte word -> base,
log2 of the size, N U W R. A refusal is BAD and its number, and for W the whole
lent buffer. calls: a call of the Function -> what it answers, sends and
becomes (calls.py tells the form); the lines are given one after another to the
same Function, new at the first. walks: a record (walks.py tells the form) ->
"-" if it changes the table; else what the host sent, T or S for a translation
or status 100, how many entries were read, the packet and what the lent buffer
holds after it, or a refusal as for W.
"""

import sys

import calls
import host
import listing
import packets
import records
import walks


def hex_of(data):
    """Upper-case hex."""
    return data.hex().upper()


def reading(line):
    """One line of the reading test."""
    got = listing.read_line(line)
    if isinstance(got, int):
        return "BAD\t%d" % got
    fields, packet = got
    payload = packets.payload_of(fields, packet)
    again = packets.write(fields, payload, packets.LONGEST)
    if isinstance(again, int):
        raise AssertionError("read but not written: %r" % (fields,))
    record = records.pack(fields, len(packet), payload)
    return hex_of(record) + "\t" + hex_of(again)


def lent(room):
    """A buffer to write into; neighbours in it are never alike."""
    return bytearray(255 - i % 251 for i in range(room))


def writing(line):
    """One line of the writing test."""
    fields, room, payload = records.unpack(bytes.fromhex(line.decode("ascii")))
    buffer = lent(room)
    got = packets.write_into(fields, payload, buffer)
    if isinstance(got, int):
        return "BAD\t%d\t%s" % (got, hex_of(buffer))
    return hex_of(buffer[:len(got)]) + "\t" + hex_of(buffer[len(got):])


def sizes(line):
    """One line of the sizes test."""
    word = int(line.decode("ascii"), 16)
    got = packets.size(word)
    if got is None:
        return "NONE"
    flags = "".join(str(word >> bit & 1) for bit in (10, 2, 1, 0))
    return "%016X\t%d\t%s" % (got[0], got[1], flags)


# What the first letter of a line asks for.
LETTERS = {b"R": reading, b"W": writing, b"S": sizes}


def packet_layer(line):
    """One line of the test of the packet layer."""
    return LETTERS[line[:1]](line[1:])


class Walks:
    """The host's table, at first of no entry, and the lines it is given."""

    def __init__(self):
        self.table = []

    def answer(self, line):
        """The answer to one line, both without line feed."""
        code, values, packet = walks.parse(line)
        if code == walks.FRESH:
            self.table = [0] * values[0]
            return "-"
        if code == walks.PUT:
            index, value = values
            if index >= len(self.table):
                raise ValueError("no entry %d" % index)
            self.table[index] = value
            return "-"
        host_id, room = values
        buffer = lent(room)
        got = host.translate_into(host_id, packet, self.table, buffer)
        if isinstance(got, int):
            return "BAD\t%d\t%s" % (got, hex_of(buffer))
        end = len(got.packet)
        return "%s\t%d\t%s\t%s" % (
            "T" if got.sent == "translation" else "S", len(got.visits),
            hex_of(buffer[:end]), hex_of(buffer[end:]))


# The last two have a state: the Function and the table that their lines are
# given to.
DRIVERS = {"packets": packet_layer, "calls": calls.Script().answer,
           "walks": Walks().answer}

if __name__ == "__main__":
    drive = DRIVERS[sys.argv[1]]
    for text in sys.stdin.buffer:
        answer = drive(text.rstrip(b"\n"))
        sys.stdout.buffer.write(answer.encode("ascii") + b"\n")
