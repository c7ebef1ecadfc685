"""Which lines of the script of calls catch a wrong card.

A line catches a card if the answer, the packet, the payload or the shown
state is another than the right card's. Each line counts for itself: the card
is given it in the state that the right card had. Where the right card does
not come through the changed method, both do the same, and the line is left
out. Every card must be caught by WANTED lines, those of wrong_cards.ONCE by
one.
"""

import sys
import textwrap
from concurrent.futures import ProcessPoolExecutor
from contextlib import contextmanager
from multiprocessing import get_context

import calls
import function
import host
import packets
import wrong_cards

WANTED = 2
PROCESSES = 2
MODULES = {"": function, "packets": packets, "calls": calls, "host": host}
# Changed here, a card may hide its mistake: it plays every line.
EVERY_LINE = ("__init__", "pages_off", "_close_pages")
ALWAYS_SHOWN = ("slots", "tags", "id", "stu", "rcb", "enabled", "agent",
                "hand", "waiting", "pages")
SHOWN_IF_ON = ("allocation", "credits", "groups")


# --- the right card -------------------------------------------------------

def state_of(card):
    """The state, with lists of its own."""
    return {name: list(value) if isinstance(value, list) else value
            for name, value in vars(card).items()}


def methods_used(into):
    """A profiler that adds the names of the methods that are entered."""
    files = {module.__file__: prefix and prefix + "."
             for prefix, module in MODULES.items()}

    def enter(frame, event, _):
        if event == "call" and frame.f_code.co_filename in files:
            into.add(files[frame.f_code.co_filename] + frame.f_code.co_name)
    return enter


def play_right(lines):
    """[(call, methods used, state before, outcome, state after)]."""
    card = function.Function()
    out, before = [], state_of(card)
    for line in lines:
        call = calls.parse(bytes.fromhex(line.decode("ascii")))
        if call[0] == "show":
            continue
        used = set()
        sys.setprofile(methods_used(used))
        outcome = calls.run(card, *call)
        sys.setprofile(None)
        after = before if isinstance(outcome, int) else state_of(card)
        out.append((call, used, before, outcome, after))
        before = after
    return out


# --- wrong cards ----------------------------------------------------------

@contextmanager
def changed(where, text):
    """A method changed for a while."""
    prefix, _, name = where.rpartition(".")
    module = MODULES[prefix]
    owner = module
    if module is function and name in vars(function.Function):
        owner = function.Function
    right, scratch = vars(owner)[name], {}
    exec(compile(textwrap.dedent(text), where, "exec"), vars(module), scratch)
    wrong = scratch[name]
    setattr(owner, name, staticmethod(wrong)
            if isinstance(right, staticmethod) else wrong)
    try:
        yield
    finally:
        setattr(owner, name, right)


def alike(now, state):
    """Are two states shown alike?"""
    for name in ALWAYS_SHOWN:
        if now[name] != state[name]:
            return False
    return state["pages"] != function.ON or all(
        now[name] == state[name] for name in SHOWN_IF_ON)


def put(card, state):
    """Put a state into a card."""
    for name, value in state.items():
        setattr(card, name, list(value) if isinstance(value, list) else value)


def catches(where, text, played):
    """The places of the first WANTED lines that catch a card."""
    every = where in EVERY_LINE
    found = []
    with changed(where, text):
        card = function.Function()
        for at, (call, used, before, outcome, after) in enumerate(played):
            if not every:
                if where not in used:
                    continue
                put(card, before)
            try:
                got = calls.run(card, *call)
            except Exception:   # whatever a wrong card may run into
                got = None
            if got != outcome or not alike(vars(card), after):
                found.append(at)
                if len(found) == WANTED:
                    break
                put(card, after)
    return found


PLAYED = {}                     # for the processes that play


def _one(card):
    """Name, sentence and places for one card."""
    name, sentence, where, text = card
    run = "long" if name in wrong_cards.LONG else "calls"
    if run not in PLAYED:
        PLAYED[run] = play_right(PLAYED["lines"])
    return name, sentence, catches(where, text, PLAYED[run])


def all_cards(lines, long_run):
    """[(name, sentence, places)] of every wrong card."""
    PLAYED.update(calls=play_right(lines), lines=long_run)
    with ProcessPoolExecutor(PROCESSES, get_context("fork")) as pool:
        return list(pool.map(_one, wrong_cards.cards(), chunksize=16))


def wanted(name):
    """How many lines must catch a card."""
    return 1 if name in wrong_cards.ONCE else WANTED
