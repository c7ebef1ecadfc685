#!/usr/bin/env python3
"""snake_names.py [--dry]: spells the repository's own definitions and lemmas in snake case, in every crate.

Run once, at the top of the repository, after port.py. A name is turned if a file of specs/, or a file of lemmas right
under proofs/, defines it (a definition, a lemma, a field or a constructor) and it has a dash inside or a capital after a
small letter. Types and facts, which begin with a capital, keep their camel case; a dash behind one becomes a low line.
Where two names would fall together, the one with the dash, a lemma, gets `_lem`. Edits under must-fail/ are turned too,
with the names that port.py turned. Names of functions, files and modules stay."""
import glob
import re
import sys

HEAD = re.compile(r"^ *(?:(?:pub|abbrev|unfoldable|record|data|ruleset) )*([^\s:(){}.,=|\"]+)(?: [({].*)? (?::|=) ", re.M)
RULES = re.compile(r"^ *(?:pub )?ruleset ([^\s=]+)", re.M)
MEMBERS = re.compile(r"^ *(?:pub )?([^\s:(){}.,=|\"]+(?: [^\s:(){}.,=|\"]+)*) : ", re.M)
TOKEN = re.compile(r"[^\s(){}\[\],;.:⌜⌝λ→×≡∷\"|`@/&!<>=#]+")
WORD = re.compile(r"[A-Za-z_][\w'-]*")
# Fields of records, and private lemmas of other files: they can share a name with the definition that is turned to it.
SHARED = {"allFound", "lastFound", "goesOn", "noWrite", "leftIn", "sizeIs"}
# The library has lemmas of these names, spelled so.
KEPT = {"and-false", "or-true"}
# Lemmas that port.py turned, whose new name a definition takes.
MOVED = {"every_one": "every_one_lem", "first_part": "first_part_lem", "no_size": "no_size_lem"}
# What port.py turned, for the edits and the documents, which it does not read.
BY_PORT = """
add-a add-at add-most after-call after-less after-none after-one after-same all-found all-ones all-start all-words
allBelow allFit and-assoc and-both and-left and-right answer-back answerOf areBytes at-back at-i at-least at-level
at-meet at-other at-own at-place at-tag atStart baseOf beq-same bit-is bit-le bitAt bitOf by-address by-place by-read
by-tests bytes-below bytesOf call-settled came-from chosen-by classOf close-other code-is cond-same digit-at effectOf
entryAt entryOf every-one first-fits first-holds first-off first-part first-step flag-is flag-small formOf found-at
found-first found-none four-is frameOf free-all fresh-ok front-length goes-back goes-on halves-lt headOf held-cut
in-either in-without inPieces indexAt is-false is-free isRefused isSet isTaken iterate-invariant known-from last-fits
last-found last-line left-in left-step leftOf liveOf low-end map-read mask-size maskOf mem-word mul-most never-both
no-byte no-size no-tf no-write none-after none-before none-found numberOf odd-is of-two one-more one-shl one-size
only-one open-step openAt or-no or-set pageOf part-none partOf place-is plain-size putBack range-clear range-other
read-back read-flags read-is read-none read-same read-whole readOf readOn rest-at rest-of row-within rowAt rowIn
same-bytes same-kind same-length same-ok same-received same-self same-tables same-test same-way seenAt size-is sizeAt
sizeOf slot-is slot-lt slotAt slotOf so-far some-bytes some-one start-is start-none startIn stays-by step-is
step-keeps sum-is summed-by switches-on take-row taken-as taken-none takes-all target-is targetOf ticket-is to-end
trailing-le trailing-ones turn-twice two-back two-is under-at unitAt upTo upper-lt value-of waits-asked waitsFor
walk-same withTag word-flags word-lt word-size wordOf written-back writtenOf zero-is
""".split()


def text(path):
    with open(path, encoding="utf-8") as f:
        return f.read()


def lemma_files():
    return sorted(glob.glob("crates/*/specs/**/*.antt", recursive=True) + glob.glob("crates/*/proofs/*.antt"))


def all_files():
    return sorted(glob.glob("crates/*/specs/**/*.antt", recursive=True) + glob.glob("crates/*/proofs/**/*.antt", recursive=True) + glob.glob("crates/*/src/**/*.rt", recursive=True))


def defined():
    found = set()
    for path in lemma_files():
        if path.endswith("/Lib.antt"):
            continue
        for m in HEAD.finditer(text(path)):
            found.add(m[1])
        for m in RULES.finditer(text(path)):
            found.add(m[1])
        for m in MEMBERS.finditer(text(path)):
            found.update(m[1].split())
    return {n for n in found if WORD.fullmatch(n)}


def snake(name):
    if name[0].isupper():
        return name.replace("-", "_")
    name = re.sub(r"(?<=[a-z0-9'])([A-Z])", r"_\1", name.replace("-", "_"))
    return name.lower()


def table():
    ours = defined()
    turned = {n: snake(n) for n in sorted(ours - KEPT) if snake(n) != n}
    taken = {}
    # camel-case names are definitions and come first
    for n in sorted(turned, key=lambda n: ("-" in n, n)):
        t = turned[n]
        if t in taken or t in ours and t not in MOVED and n not in SHARED:
            t += "_lem"
        assert t not in taken, t
        taken[t] = n
        turned[n] = t
    return turned, ours


def respell(s, turned):
    return TOKEN.sub(lambda m: turned.get(m[0], m[0]), s)


def respell_quoted(s, turned):
    return re.sub(r"`[^`\n]+`", lambda m: respell(m[0], turned), s)


def rewrite(paths, change, turned):
    for path in paths:
        old = text(path)
        new = change(old, turned)
        if new != old:
            with open(path, "w", encoding="utf-8") as f:
                f.write(new)


def main():
    turned, ours = table()
    dry = "--dry" in sys.argv
    if dry:
        for n, t in turned.items():
            if t != snake(n):
                print("fall together:", n, "->", t)
        targets = {t: n for n, t in turned.items()}
        seen = {}
        for path in all_files():
            for m in TOKEN.finditer(text(path)):
                if m[0] in targets:
                    seen.setdefault(m[0], set()).add(path)
        for t, paths in sorted(seen.items()):
            print("there already:", t, "from", targets[t], len(paths), sorted(paths)[:3])
        print(len(turned), "names")
        return
    lemmas = lemma_files()
    rewrite(lemmas, respell, turned | MOVED)
    rewrite([path for path in all_files() if path not in lemmas], respell, turned)
    by_port = {n: snake(n) for n in BY_PORT}
    rewrite(sorted(glob.glob("crates/*/must-fail/*.edit") + glob.glob(".ci/void/*/*.edit")), respell, by_port | turned)
    rewrite(sorted(glob.glob("docs/**/*.md", recursive=True)) + ["README.md"], respell_quoted, by_port | turned)


main()
