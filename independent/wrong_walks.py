"""Wrong translators: hosts with one mistake each, which walks must catch.

As in wrong_cards.py: a name, a sentence that says what is wrong, and a change
of the source, in one function of host.py. The readers that never give one of
their refusals, or give it under another number, are taken from there.
"""

import caught
import drivers
import host
import wrong_cards

# --- pieces of the source -------------------------------------------------

ABOVE = "if address >= END:"
TOO_HIGH = ABOVE + "\n        return NULL, visits"
MISSING = "if not wholly_lent(table, number):"
NEITHER = "if not entry & (R | W):"
STOPS = NEITHER + "\n            return NULL, visits"
NARROWED = "rights &= entry"
FOUND = "return translation(entry, level, rights), visits"
WISHED = "if no_write:"
EMPTY = "if not rights:"
EMPTIED = EMPTY + "\n        return NULL, visits"
A_PAGE = "return frame | rights"
LARGER = "return frame | ones | S | rights"
IN_NUMBER = "(entry & NUMBER) >> 12"
NOT_TR = "if not isinstance(request, packets.Tr):"
READ = "request = packets.read(packet)"
SHORT = "if isinstance(written, int):"
UNREFUSED = "if not isinstance(outcome, int):"
ASKED = "request.address, request.no_write"
STATUS_TC = "tc=request.tc, sender=host_id, status"
DATA_TC = "tc=request.tc, sender=host_id, length"

INDEXES = (
    *(("index-%d-by-%d" % (level, by), "The index of level %d is taken %d "
       "bits from its place." % (level, by), "index_at",
       "LEVELS[level]", "LEVELS[level] + (%d if level == %d else 0)"
       % (by, level))
      for level in (1, 2, 3, 4) for by in (-9, -1, 1, 9)),
    ("index-reversed", "The levels take the indexes from the low end.",
     "index_at", "LEVELS[level]", "LEVELS[5 - level]"),
    ("index-8-bits", "An index has eight bits.",
     "index_at", "0x1FF", "0xFF"),
    ("index-10-bits", "An index has ten bits.",
     "index_at", "0x1FF", "0x3FF"),
)

TABLES = (
    ("lent-begin", "A table of which nothing but its begin is lent is read.",
     "wholly_lent", "(number + 1)", "number"),
    ("lent-next", "The table after it must be lent too.",
     "wholly_lent", "(number + 1)", "(number + 2)"),
    ("lent-more", "One entry more must be lent.",
     "wholly_lent", "<=", "<"),
    ("lent-one-less", "The last entry of a table may be missing.",
     "wholly_lent", "<= len(table)", "<= len(table) + 1"),
    ("lent-root", "The root is taken for lent.",
     "wholly_lent", "return ", "return number == 0 or "),
    ("lent-root-nonempty", "Any entry makes the root lent.",
     "wholly_lent", "return ", "return number == 0 and len(table) > 0 or "),
    ("lent-others", "All but the root are taken for lent.",
     "wholly_lent", "return ", "return number > 0 or "),
    ("lent-32-bits", "Places in the table are counted in 32 bits.",
     "wholly_lent", "ENTRIES * (number + 1)",
     "ENTRIES * (number + 1) % (1 << 32)"),
    ("lent-entry", "It is enough that the entry itself is lent.",
     "walk", MISSING, "if ENTRIES * number + index_at(address, level) "
     ">= len(table):"),
    ("lent-eight", "There are never more than seven tables.",
     "wholly_lent", "return ", "return number < 7 and "),
    ("next-63", "The next table's number goes up to bit 63.",
     "next_table", IN_NUMBER, "entry >> 12"),
    ("next-52", "The next table's number goes up to bit 52.",
     "next_table", IN_NUMBER, "entry >> 12 & (1 << 41) - 1"),
    ("next-50", "The next table's number goes up to bit 50.",
     "next_table", IN_NUMBER, "entry >> 12 & (1 << 39) - 1"),
    ("next-43", "The next table's number goes up to bit 43.",
     "next_table", IN_NUMBER, "entry >> 12 & 0xFFFFFFFF"),
    ("next-31", "The next table's number goes up to bit 31.",
     "next_table", IN_NUMBER, "entry >> 12 & 0xFFFFF"),
    ("next-11", "The next table's number begins at bit 11.",
     "next_table", IN_NUMBER, "(entry & (1 << 52) - 1) >> 11"),
    ("next-13", "The next table's number begins at bit 13.",
     "next_table", "12", "13"),
    ("next-address", "The next table's number is an address.",
     "next_table", " >> 12", ""),
    ("next-relative", "The next table's number counts from this table.",
     "walk", "number = next_table(entry)", "number += next_table(entry)"),
    ("loop", "A table that was visited is not visited again.",
     "walk", MISSING, MISSING[:-1]
     + " or any(number == k for k, _ in visits):"),
    ("loop-next", "A table that leads to itself counts as missing.",
     "walk", MISSING, MISSING[:-1]
     + " or visits and visits[-1][0] == number:"),
    ("loop-root", "The root is no next table.",
     "walk", MISSING, MISSING[:-1] + " or visits and number == 0:"),
)

ENDINGS = (
    ("ends-at-1", "Bit 7 ends the walk at the first level too.",
     "ends", "level in (2, 3)", "level in (1, 2, 3)"),
    ("ends-not-at-2", "Bit 7 means nothing at the second level.",
     "ends", "level in (2, 3)", "level == 3"),
    ("ends-not-at-3", "Bit 7 means nothing at the third level.",
     "ends", "level in (2, 3)", "level == 2"),
    ("ends-never", "Bit 7 means nothing.",
     "ends", "level in (2, 3)", "False"),
    ("ends-reversed", "Bit 7 clear ends the walk.",
     "ends", "!= 0", "== 0"),
    ("ends-bit-6", "Bit 6 ends the walk.",
     "ends", "entry & ENDS", "entry & 1 << 6"),
    ("ends-bit-8", "Bit 8 ends the walk.",
     "ends", "entry & ENDS", "entry & 1 << 8"),
    ("ends-writable", "Bit 7 without W does not end the walk.",
     "ends", "!= 0", "!= 0 and entry & W != 0"),
    ("ends-at-3-always", "The third level always ends the walk.",
     "ends", "if level in (2, 3):\n        return entry & ENDS != 0",
     "if level in (2, 3):\n        return entry & ENDS != 0 or level == 3"),
    ("ends-4-large", "Bit 7 at the fourth level makes 2 MiB of it.",
     "walk", FOUND, FOUND.replace(
         "level,", "3 if level == 4 and entry & ENDS else level,")),
    ("ends-4-null", "Bit 7 at the fourth level takes the rights.",
     "walk", EMPTY, "if not rights or level == 4 and entry & ENDS:"),
    ("ends-1-null", "Bit 7 at the first level stops the walk.",
     "walk", NEITHER, "if not entry & (R | W) or level == 1 and "
     "entry & ENDS:"),
)

STOPPING = (
    ("limit-47", "Addresses have 47 bits.",
     "walk", ABOVE, "if address >= END // 2:"),
    ("limit-49", "Addresses have 49 bits.",
     "walk", ABOVE, "if address >= END * 2:"),
    ("limit-itself", "2 to the 48 is not above 48 bits.",
     "walk", ABOVE, "if address > END:"),
    ("limit-none", "Address bits above 47 are not looked at.",
     "walk", ABOVE, "if False:"),
    ("limit-signed", "An address may be extended by its bit 47.",
     "walk", ABOVE, "if END <= address < (1 << 64) - END // 2:"),
    ("limit-later", "The root must be lent for an address above 48 bits.",
     "walk", ABOVE, "if address >= END and wholly_lent(table, 0):"),
    ("limit-status", "An address above 48 bits gives status 100.",
     "walk", TOO_HIGH, TOO_HIGH.replace("NULL", "None")),
    ("limit-counted", "An address above 48 bits counts one entry.",
     "walk", TOO_HIGH, TOO_HIGH.replace("visits", "[(0, 0)]")),
    ("missing-null", "A table that is missing gives no rights.",
     "walk", "return None, visits", "return NULL, visits"),
    ("missing-root-null", "A root that is missing gives no rights.",
     "walk", "return None, visits", "return None if visits else NULL, "
     "visits"),
    ("missing-later-null", "Only a missing root gives status 100.",
     "walk", "return None, visits", "return NULL if visits else None, "
     "visits"),
    ("missing-counted", "The entry of a missing table is counted.",
     "walk", "return None, visits", "return None, visits + [(number, 0)]"),
    ("missing-not-counted", "A missing table takes an entry back.",
     "walk", "return None, visits", "return None, visits[:-1]"),
    ("missing-if-rights", "Without rights a missing table is not noticed.",
     "walk", "return None, visits", "return None if rights else NULL, "
     "visits"),
    ("missing-if-writable", "Without W a missing table is not noticed.",
     "walk", "return None, visits", "return None if rights & W else NULL, "
     "visits"),
    ("stop-and", "The walk stops where no right is left over.",
     "walk", NEITHER, "if not entry & rights:"),
    ("stop-r", "An entry without R stops the walk.",
     "walk", NEITHER, "if not entry & R:"),
    ("stop-w", "An entry without W stops the walk.",
     "walk", NEITHER, "if not entry & W:"),
    ("stop-zero", "Only an entry of all zeros stops the walk.",
     "walk", NEITHER, "if not entry:"),
    ("stop-named", "Bit 7 keeps an entry without rights from stopping.",
     "walk", NEITHER, "if not entry & (R | W | ENDS):"),
    ("stop-never", "An entry without rights does not stop the walk.",
     "walk", NEITHER, "if False:"),
    *(("stop-not-at-%d" % level, "An entry without rights at level %d does "
       "not stop the walk." % level, "walk", NEITHER,
       NEITHER[:-1] + " and level != %d:" % level) for level in (1, 2, 3)),
    ("stop-status", "An entry without rights gives status 100.",
     "walk", STOPS, STOPS.replace("NULL", "None")),
    ("stop-one-less", "The entry that stops the walk is not counted.",
     "walk", STOPS, STOPS + "[:-1]"),
    ("stop-one-more", "The entry that stops the walk counts twice.",
     "walk", STOPS, STOPS + " + visits[-1:]"),
    ("stop-four", "A walk that stops counts four entries.",
     "walk", STOPS, STOPS + " + visits[-1:] * (4 - level)"),
    ("end-one-less", "The last entry is not counted.",
     "walk", FOUND, FOUND + "[:-1]"),
    ("end-four", "A large page counts four entries.",
     "walk", FOUND, FOUND + " + visits[-1:] * (4 - level)"),
    ("empty-one-less", "Rights that come to nothing count one less.",
     "walk", EMPTIED, EMPTIED + "[:-1]"),
    ("empty-none", "Rights that come to nothing count no entry.",
     "walk", EMPTIED, EMPTIED.replace("visits", "[]")),
    ("empty-status", "Rights that come to nothing give status 100.",
     "walk", EMPTIED, EMPTIED.replace("NULL", "None")),
    ("empty-page", "A page without rights keeps its address and size.",
     "walk", EMPTY, "if False:"),
    ("empty-size", "A page without rights keeps its size.",
     "walk", EMPTIED, EMPTIED.replace("NULL", "translation(0, level, 0)")),
    ("empty-address", "A page without rights keeps its address.",
     "walk", EMPTIED, EMPTIED.replace("NULL", "entry & NUMBER")),
    ("null-s", "A translation without rights has S set.",
     "reply", "word.to_bytes", "(word or S).to_bytes"),
    ("null-u", "A translation without rights has U set.",
     "reply", "word.to_bytes", "(word or 4).to_bytes"),
    ("null-w", "Rights that come to nothing leave W.",
     "walk", EMPTIED, EMPTIED.replace("NULL", "W")),
)

RIGHTS = (
    ("rights-or", "Rights are those that any entry grants.",
     "walk", NARROWED, "rights = (rights & -(level > 1) | entry) & 3"),
    ("rights-last", "Only the last entry grants rights.",
     "walk", NARROWED, "rights = entry & (R | W)"),
    *(("rights-%d" % level, "The entry of level %d grants all rights."
       % level, "walk", NARROWED,
       "rights &= entry | (R | W) * (level == %d)" % level)
      for level in (1, 2, 3, 4)),
    ("rights-r-kept", "R is granted by every entry.",
     "walk", NARROWED, "rights &= entry | R"),
    ("rights-w-kept", "W is granted by every entry.",
     "walk", NARROWED, "rights &= entry | W"),
    ("rights-w-reads", "W brings R with it.",
     "walk", NARROWED, "rights &= entry | (entry & W) >> 1"),
    ("rights-w-needs-r", "W without R is nothing.",
     "walk", EMPTY, "if not rights & R:"),
    ("rights-swapped", "R and W change places.",
     "walk", FOUND, FOUND.replace(
         "rights)", "rights >> 1 | (rights & 1) << 1)")),
    ("wish-ignored", "No Write is not looked at.",
     "walk", WISHED, "if False:"),
    ("wish-always", "W is never given.",
     "walk", WISHED, "if True:"),
    ("wish-clears-r", "No Write clears R.",
     "walk", "rights &= R", "rights &= W"),
    ("wish-clears-all", "No Write clears all rights.",
     "walk", "rights &= R", "rights = 0"),
    ("wish-w-alone", "No Write leaves W where R is missing.",
     "walk", WISHED, "if no_write and rights & R:"),
    ("wish-rw", "No Write leaves W beside R.",
     "walk", WISHED, "if no_write and not rights & R:"),
    ("wish-w-refuses", "No Write takes R with a W.",
     "walk", WISHED, "if no_write and rights & W:\n        rights = 0\n    "
     + WISHED),
    ("wish-first", "No Write stops at an entry that has W alone.",
     "walk", NEITHER, "if not entry & (R if no_write else R | W):"),
    *(("wish-not-at-%d" % level, "No Write is not looked at where level %d "
       "ends the walk." % level, "walk", WISHED,
       "if no_write and level != %d:" % level) for level in (2, 3, 4)),
)

PAGES = (
    ("frame-below", "Address bits below the size are kept.",
     "translation", " & -size", " & -4096"),
    ("frame-2-mib", "Address bits of 1 GiB below it are kept from 21 on.",
     "translation", " & -size", " & -min(size, 1 << 21)"),
    ("frame-above", "Address bits 63:52 are kept.",
     "translation", "entry & NUMBER", "entry & -4096"),
    ("frame-bit-51", "Address bit 51 is lost.",
     "translation", "entry & NUMBER", "entry & NUMBER >> 1"),
    ("frame-bit-52", "Address bit 52 is kept.",
     "translation", "entry & NUMBER", "entry & (NUMBER | 1 << 52)"),
    ("frame-32-bits", "Addresses have 32 bits.",
     "translation", "entry & NUMBER", "entry & NUMBER & 0xFFFFFFFF"),
    ("frame-half", "One more bit of the address is cleared.",
     "translation", " & -size", " & -2 * size"),
    ("frame-inside", "The 4096 bytes inside a large page are sent.",
     "walk", FOUND, "inside = address % (1 << LEVELS[level])\n    "
     "return (entry & NUMBER & -1 << LEVELS[level]) | inside | rights, "
     "visits"),
    ("size-double", "A large page has double the size.",
     "translation", "size // 2", "size"),
    ("size-half", "A large page has half the size.",
     "translation", "size // 2", "size // 4"),
    ("size-none", "The size is not coded into the address.",
     "translation", "size // 2 - 4096", "0"),
    ("size-no-s", "S is never set.",
     "translation", " | S | ", " | "),
    ("size-s-always", "S is set for 4096 bytes.",
     "translation", A_PAGE, A_PAGE.replace("|", "| S |")),
    ("size-1-as-2", "1 GiB is sent as 2 MiB.",
     "translation", "LEVELS[level]", "LEVELS[max(level, 3)]"),
    ("size-2-as-1", "2 MiB is sent as 1 GiB.",
     "translation", "LEVELS[level]", "LEVELS[2 if level < 4 else 4]"),
    ("size-4096", "Every page is of 4096 bytes.",
     "translation", "if size == 4096:", "if True:"),
    *(("%s-%s" % (flag, size), "%s is set for %s." % (flag.upper(), words),
       "translation", old, "%s | 1 << %d" % (old, bit))
      for flag, bit in (("n", 10), ("u", 2))
      for size, words, old in (("small", "4096 bytes", A_PAGE),
                               ("large", "large pages", LARGER))),
    ("noise-9", "Bits 9:3 of an entry go into the translation.",
     "translation", A_PAGE, A_PAGE + " | entry & 0x3F8"),
    ("noise-large", "Bits 9:3 of an entry go into a large translation.",
     "translation", LARGER, LARGER + " | entry & 0x3F8"),
)

REPLIES = (
    ("tc-status", "Status 100 goes out in TC 0.",
     "reply", STATUS_TC, STATUS_TC.replace("request.tc", "0")),
    ("tc-data", "A translation goes out in TC 0.",
     "reply", DATA_TC, DATA_TC.replace("request.tc", "0")),
    ("sender-status", "Status 100 goes out in the name of the requester.",
     "reply", STATUS_TC, STATUS_TC.replace("host_id", "request.sender")),
    ("sender-data", "A translation goes out in the name of the requester.",
     "reply", DATA_TC, DATA_TC.replace("host_id", "request.sender")),
    ("requester-status", "Status 100 goes to the host.",
     "reply", "byte_count=4 * request.length, requester=request.sender",
     "byte_count=4 * request.length, requester=host_id"),
    ("requester-data", "A translation goes to the host.",
     "reply", "byte_count=8,\n        requester=request.sender",
     "byte_count=8,\n        requester=host_id"),
    ("tag-status", "Status 100 has Tag 0.",
     "reply", "tag=request.tag, lower=0", "tag=0, lower=0"),
    ("tag-data", "A translation has a Tag below 32.",
     "reply", "tag=request.tag,\n        lower=LOWER",
     "tag=request.tag % 32,\n        lower=LOWER"),
    ("attr-status", "Status 100 has the TR's Attr.",
     "reply", STATUS_TC, "attr=request.attr, " + STATUS_TC),
    ("attr-data", "A translation has the TR's Attr.",
     "reply", DATA_TC, "attr=request.attr, " + DATA_TC),
    ("status-1", "A missing table gives status 001.",
     "reply", "status=ABORT", "status=1"),
    ("status-0", "A missing table gives status 000.",
     "reply", "status=ABORT", "status=0"),
    ("count-8", "The Byte Count of status 100 is 8.",
     "reply", "byte_count=4 * request.length", "byte_count=8"),
    ("count-4", "The Byte Count of status 100 is 4.",
     "reply", "byte_count=4 * request.length", "byte_count=4"),
    ("count-0", "The Byte Count of status 100 is 0.",
     "reply", "byte_count=4 * request.length", "byte_count=0"),
    ("count-words", "The Byte Count of status 100 is the Length.",
     "reply", "byte_count=4 * request.length", "byte_count=request.length"),
    ("count-7-bits", "The Byte Count of status 100 has seven bits.",
     "reply", "byte_count=4 * request.length",
     "byte_count=4 * request.length & 127"),
    ("count-data", "The Byte Count of a translation is for the whole TR.",
     "reply", "byte_count=8", "byte_count=4 * request.length"),
    ("lower-status", "The Lower Address of status 100 is 120.",
     "reply", "lower=0", "lower=LOWER"),
    ("lower-0", "The Lower Address of a translation is 0.",
     "reply", "lower=LOWER", "lower=0"),
    ("lower-56", "The Lower Address of a translation is 56.",
     "reply", "lower=LOWER", "lower=56"),
    ("lower-null", "Without rights the Lower Address is 0.",
     "reply", "lower=LOWER", "lower=LOWER if word else 0"),
    ("word-little", "A translation goes out low byte first.",
     "reply", "\"big\"", "\"little\""),
)

CALLS = (
    ("kind-4", "A kind other than TR is 4.",
     "translate", "return 2", "return 4"),
    ("kind-5", "A kind other than TR is 5.",
     "translate", "return 2", "return 5"),
    ("unread-4", "Whatever does not read is 4.",
     "translate", "return request", "return 4"),
    ("unread-2", "Nothing that does not read is 1.",
     "translate", "return request", "return max(request, 2)"),
    ("short-first", "17 comes before the numbers of reading.",
     "translate", READ, "if room < 12:\n        return 17\n    " + READ),
    ("short-before-2", "17 comes before 2 for the kind.",
     "translate", NOT_TR, "if room < 12:\n        return 17\n    " + NOT_TR),
    ("short-20", "Status 100 needs 20 bytes too.",
     "translate", SHORT, "if room < 20:\n        return 17\n    " + SHORT),
    ("short-16", "A translation needs 16 bytes.",
     "translate", "word), room)", "word), room + 4 * (room > 15))"),
    ("short-12", "A translation needs 12 bytes.",
     "translate", "word), room)", "word), room + 8 * (room > 11))"),
    ("short-21", "A byte must be left over.",
     "translate", "word), room)", "word), room - 1)"),
    ("short-never", "There is always room.",
     "translate", "word), room)", "word), 64)"),
    ("short-12-number", "A short buffer is 12.",
     "translate", "return written", "return 12"),
    ("short-null", "A translation without rights needs 12 bytes only.",
     "translate", "word), room)", "word), room if word or room < 12 "
     "else 64)"),
    ("sent-null", "A translation without rights is said to be a status.",
     "translate", "if word is None", "if not word"),
    ("sent-always", "Status 100 is said to be a translation.",
     "translate", "if word is None", "if False"),
    ("asked-wish", "No Write is taken from the Length.",
     "translate", "request.no_write", "request.length > 2"),
    ("asked-no-wish", "No Write is taken for clear.",
     "translate", "request.no_write", "0"),
    ("asked-last", "The last unit is translated.",
     "translate", ASKED, "request.address + 2048 * (request.length - 2), "
     "request.no_write"),
    ("asked-aligned", "The address is rounded down to the whole TR.",
     "translate", ASKED, "request.address // (2048 * request.length) "
     "* (2048 * request.length), request.no_write"),
    ("asked-48-bits", "The upper bits of the address are lost.",
     "translate", ASKED, "request.address % END, request.no_write"),
    ("asked-32-bits", "The upper half of the address is lost.",
     "translate", ASKED, "request.address % (1 << 32), request.no_write"),
    ("count-most-3", "No more than three entries are counted.",
     "translate", "tuple(visits)", "tuple(visits[:3])"),
    ("count-distinct", "An entry that is read twice counts once.",
     "translate", "tuple(visits)", "tuple(sorted(set(visits)))"),
    ("count-tables", "Tables are counted, not entries.",
     "translate", "tuple(visits)", "tuple({k for k, _ in visits})"),
    ("buffer-cleared", "The rest of the buffer is cleared.",
     "translate_into", UNREFUSED, UNREFUSED
     + "\n        buffer[:] = bytes(len(buffer))"),
    ("buffer-refused", "A refused call clears the buffer.",
     "translate_into", UNREFUSED, "if isinstance(outcome, int):\n"
     "        buffer[:] = bytes(len(buffer))\n    " + UNREFUSED),
    ("buffer-begun", "A call that is refused with 17 has begun to write.",
     "translate_into", UNREFUSED, "if outcome == 17:\n"
     "        buffer[:1] = b\"\\x4A\"[:len(buffer)]\n    " + UNREFUSED),
    ("buffer-end", "The reply stands at the end of the buffer.",
     "translate_into", "buffer[:len(outcome.packet)]",
     "buffer[len(buffer) - len(outcome.packet):]"),
)

WRITTEN = (INDEXES + TABLES + ENDINGS + STOPPING + RIGHTS + PAGES + REPLIES
           + CALLS)

FUNCTIONS = wrong_cards.methods_of(host, "host.")


# --- playing --------------------------------------------------------------

def written():
    """Those written by hand: (name, sentence, function, changed text)."""
    for name, sentence, where, old, new in WRITTEN:
        text = FUNCTIONS["host." + where]
        if text.count(old) != 1 or old == new:
            raise AssertionError("%s: its text stands there %d times"
                                 % (name, text.count(old)))
        yield name, sentence, "host." + where, text.replace(old, new)


def translators():
    """All of them, with the readers that refuse otherwise."""
    out = [*written(), *(card for card in wrong_cards.made()
                         if card[2].startswith("packets."))]
    if len({name for name, *_ in out}) != len(out):
        raise AssertionError("two wrong translators of one name")
    return out


def catches(where, text, lines, right, most=None):
    """The places of the lines, or the first, that catch a translator."""
    found = []
    script = drivers.Walks()
    with caught.changed(where, text):
        for at, line in enumerate(lines):
            try:
                got = script.answer(line)
            except Exception:   # whatever a wrong translator may run into
                got = None
            if got != right[at]:
                found.append(at)
                if len(found) == most:
                    break
    return found
