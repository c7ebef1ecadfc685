"""The host's translator: the page walk and the reply to a TR.

Implements request b) on top of packets.py, which gives the numbers of reading
and lays out what is sent. The host is handed a packet and a table of 64-bit
entries; it keeps nothing from one call to the next. Of a Translation Request
it translates the first unit, and replies in one packet.

A call gives an Outcome, or its refusal as a plain int.
"""

from dataclasses import dataclass

import packets

ENTRIES = 512                   # of one table
END = 1 << 48                   # one past the last address that is walked
R, W = 1, 2                     # in an entry and in a translation
ENDS = 1 << 7                   # an entry that may end the walk early
NUMBER = (1 << 52) - (1 << 12)  # bits 51:12 of an entry
S = 1 << 11                     # of a translation
NULL = 0                        # the translation without rights
ABORT = 4                       # completion status 100
LOWER = 120                     # 8 bytes that end where an RCB of 128 does
# Level -> the lowest of the nine bits of its index; what one entry of the
# level covers is 2 to the power of it.
LEVELS = {1: 39, 2: 30, 3: 21, 4: 12}


@dataclass(frozen=True)
class Outcome:
    """What an unrefused call gives; as many entries were read as visited."""
    sent: str           # "translation" or "status"
    packet: bytes
    visits: tuple       # (table number, index) of each entry, in order


# --- the walk -------------------------------------------------------------

def index_at(address, level):
    """Which entry of a table of this level is for the address."""
    return address >> LEVELS[level] & 0x1FF


def wholly_lent(table, number):
    """Does the table that was lent hold the whole table of this number?"""
    return ENTRIES * (number + 1) <= len(table)


def next_table(entry):
    """The number of the table that an entry leads to."""
    return (entry & NUMBER) >> 12


def ends(entry, level):
    """Is an entry of this level the last of the walk?"""
    if level in (2, 3):
        return entry & ENDS != 0
    return level == 4


def translation(entry, level, rights):
    """The 8 bytes, as a number, that the last entry of a walk gives.

    Document 01, "Sizes": ones from bit 12 up and a zero below the first bit
    of the address say that the page is larger than 4096 bytes.
    """
    size = 1 << LEVELS[level]
    frame = entry & NUMBER & -size
    if size == 4096:
        return frame | rights
    ones = size // 2 - 4096
    return frame | ones | S | rights


def walk(table, address, no_write):
    """(translation, visits); None in place of a translation for status 100.

    A walk goes on where no right is left over: the next table may be missing.
    """
    visits = []
    if address >= END:
        return NULL, visits
    number, rights = 0, R | W
    for level in LEVELS:
        if not wholly_lent(table, number):
            return None, visits
        index = index_at(address, level)
        entry = table[ENTRIES * number + index]
        visits.append((number, index))
        if not entry & (R | W):
            return NULL, visits
        rights &= entry
        if ends(entry, level):
            break
        number = next_table(entry)
    if no_write:
        rights &= R
    if not rights:
        return NULL, visits
    return translation(entry, level, rights), visits


# --- the call -------------------------------------------------------------

def reply(host_id, request, word):
    """(fields, payload) of the reply to a TR; no word is status 100."""
    if word is None:
        return packets.Cpl(
            tc=request.tc, sender=host_id, status=ABORT,
            byte_count=4 * request.length, requester=request.sender,
            tag=request.tag, lower=0), b""
    return packets.CplData(
        tc=request.tc, sender=host_id, length=2, byte_count=8,
        requester=request.sender, tag=request.tag,
        lower=LOWER), word.to_bytes(8, "big")


def translate(host_id, packet, table, room):
    """Answer a received packet; or 1, 2, 3, 4 of reading, 2, 17.

    host_id is of 16 bits, the table a sequence of numbers of 64 bits each.
    """
    request = packets.read(packet)
    if isinstance(request, int):
        return request
    if not isinstance(request, packets.Tr):
        return 2
    word, visits = walk(table, request.address, request.no_write)
    sent = "status" if word is None else "translation"
    written = packets.write(*reply(host_id, request, word), room)
    if isinstance(written, int):
        return written
    return Outcome(sent, written, tuple(visits))


def translate_into(host_id, packet, table, buffer):
    """Put the reply at the start of a bytearray; what translate gives."""
    outcome = translate(host_id, packet, table, len(buffer))
    if not isinstance(outcome, int):
        buffer[:len(outcome.packet)] = outcome.packet
    return outcome
