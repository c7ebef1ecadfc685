"""Runs Rattle functions on random arguments, to see whether an edit changes the result of a function, and at which of its ends.

Functions of the same crate are run, and those of other crates on plain values (no arrays, no loops). All others are
unknown functions: the same arguments give the same result, drawn at random by its type. Of the library the methods that the crates use are
known. Numbers are drawn from those in the code, their neighbours, small numbers and any numbers. This is a test, not a proof: it can miss a difference,
and it can find one that the contracts of other crates exclude."""
import hashlib
import re

from rattle_code import BITS, UNIT, Fn, Unknown, calls_in, find

MOST_STEPS = 30000


class Trap(Exception):
    """What a proved function never does: an index out of range, a difference below 0, or no end."""


class Returned(Exception):
    """A `return`, or a `?` that finds no value: with the value, and where it stands."""


class Left(Exception):
    """A `break` or `continue`."""


# values: numbers and booleans as Python's, iterators as its lists, closures as its functions, and these

class Record:
    """A struct: fields that were given, and others drawn when they are looked at."""

    def __init__(self, run, kind, key, given):
        self.run, self.kind, self.key, self.given = run, kind, key, given

    def get(self, name):
        if name not in self.given:
            self.given[name] = self.run.draw(dict(self.run.type_of(("name", self.kind, []))[1])[name], self.key + "." + name)
        return self.given[name]

    def put(self, name, value):
        return Record(self.run, self.kind, self.key, dict(self.given, **{name: value}))

    def told(self):
        return "{%s}" % ",".join(told(self.get(name)) for name, _ in self.run.type_of(("name", self.kind, []))[1])


class Variant:
    def __init__(self, kind, name, inner):
        self.kind, self.name, self.inner = kind, name, inner

    def told(self):
        return self.name + ("(%s)" % ",".join(map(told, self.inner)) if self.inner else "")


class Row:
    """An array, a slice or a tuple: elements that were stored, and others drawn when they are looked at."""

    def __init__(self, run, inner, size, key, stored=None, first=0):
        self.run, self.inner, self.size, self.key, self.stored, self.first = run, inner, size, key, stored or {}, first

    def drawn(self, i):
        """Often all elements are alike."""
        like = self.run.chance(self.key + "~") % 4
        return self.run.draw(self.inner, "%s#%d" % (self.key, i if like > 1 else 0))

    def get(self, i):
        i = int(i)
        if not 0 <= i < self.size:
            raise Trap("index")
        i += self.first
        return self.stored[i] if i in self.stored else self.drawn(i)

    def put(self, i, value):
        i = int(i)
        if not 0 <= i < self.size:
            raise Trap("index")
        i += self.first
        stored = {k: v for k, v in self.stored.items() if k != i}
        if not self.key or told(self.drawn(i)) != told(value):
            stored[i] = value
        return Row(self.run, self.inner, self.size, self.key, stored, self.first)

    def part(self, low, high):
        if not 0 <= low <= high <= self.size:
            raise Trap("part")
        return Row(self.run, self.inner, high - low, self.key, self.stored, self.first + low)

    def all(self):
        return [self.get(i) for i in range(self.size)]

    def told(self):
        inside = ["%d:%s" % (i - self.first, told(v)) for i, v in sorted(self.stored.items()) if self.first <= i < self.first + self.size]
        return "%s[%s]" % ("%s@%d+%d" % (self.key, self.first, self.size) if self.size and self.key else "", ",".join(inside))


class Cell:
    """A variable, and its type if that is known."""

    def __init__(self, value, kind=None):
        self.value, self.kind = value, kind


class Place:
    """`&mut`: of a variable, or of what fields, indices and bounds of a part lead to in it."""

    def __init__(self, cell, steps=()):
        self.cell, self.steps = cell, steps

    def read(self):
        value = self.cell.value
        for step in self.steps:
            value = value.part(*step) if isinstance(step, tuple) else value.get(step)
        return value

    def store(self, value):
        self.cell.value = stored(self.cell.value, self.steps, value)

    def at(self, step):
        """The place of a field, an element or a part; a field that is lent is a place of its own."""
        inside = self.read()
        inside = inside.part(*step) if isinstance(step, tuple) else inside.get(step)
        return inside if isinstance(inside, Place) else Place(self.cell, self.steps + (step,))

    def told(self):
        return told(self.read())


def stored(whole, steps, value):
    """A value with another one at the end of these steps."""
    if not steps:
        return value
    step, rest = steps[0], steps[1:]
    if not isinstance(step, tuple):
        return whole.put(step, stored(whole.get(step), rest, value))
    part = stored(whole.part(*step), rest, value)
    for i in range(part.size):
        whole = whole.put(step[0] + i, part.get(i))
    return whole


def plain(value):
    """A value that may be lent, itself."""
    while isinstance(value, Place):
        value = value.read()
    return value


def told(value):
    """A value as text: the same for values that are equal."""
    if isinstance(value, list):
        return "[%s]" % ",".join(map(told, value))
    return str(int(value)) if isinstance(value, (int, bool)) else value.told()


def short(text):
    return hashlib.blake2b(text.encode(), digest_size=12).hexdigest()


class Run:
    """One drawing of everything that is unknown."""

    def __init__(self, crates, crate, pool, seed):
        self.crates, self.crate, self.pool, self.seed = crates, crate, pool, seed
        self.steps, self.depth, self.end, self.echo, self.fn, self.sizes = 0, 0, None, [], None, {}

    # what is unknown

    def chance(self, key):
        return int.from_bytes(hashlib.blake2b(("%d:%s" % (self.seed, key)).encode(), digest_size=16).digest(), "little")

    def draw_number(self, bits, key):
        by = self.chance(key)
        how, by = by % 16, by >> 8
        if how < 3:
            return by % 40
        if how < 5 and self.echo:
            return self.echo[by % len(self.echo)] % 2 ** bits
        if how == 5:
            return (2 ** (by % bits) + (by >> 8) % 3 - 1) % 2 ** bits
        if how == 6:
            return by % 2 ** bits
        if how == 7:
            return 2 ** bits - 1 - by % 5
        return self.pool[by % len(self.pool)] % 2 ** bits

    def draw(self, kind, key):
        if kind[0] == "int":
            return self.draw_number(kind[1], key)
        if kind[0] == "bool":
            return self.chance(key) % 2 == 1
        if kind[0] == "ref":
            return self.draw(kind[2], key)
        if kind[0] == "slice":
            return Row(self, kind[1], self.draw_number(16, key + "#") % (1100 if kind[1] == ("int", 64) else 300), key)
        if kind[0] == "array":
            return Row(self, kind[1], self.value(kind[2], {}), key)
        if kind[0] == "tuple":
            return self.row([self.draw(one, "%s.%d" % (key, i)) for i, one in enumerate(kind[1])])
        if kind[0] == "unit":
            return 0
        shape, parts = self.type_of(kind)
        if shape == "struct":
            return Record(self, kind[1], key, {})
        name, inner = parts[self.chance(key) % len(parts)]
        return Variant(kind[1], name, [self.draw(t, "%s(%d)" % (key, i)) for i, t in enumerate(inner)])

    def type_of(self, kind):
        name, given = kind[1], kind[2] if len(kind) > 2 else []
        if name == "Option":
            return "enum", [("None", []), ("Some", given[:1])]
        if name == "Result":
            return "enum", [("Ok", given[:1]), ("Err", given[1:])]
        for crate in self.own_first():
            if name in self.crates[crate].types:
                return self.crates[crate].types[name]
        raise Unknown("no type " + name)

    def own_first(self):
        return [self.crate] + [c for c in self.crates if c != self.crate]

    def kind_of(self, node, env):
        """The type of a piece of code, as far as it can be seen; or None."""
        if node.kind == "path" and len(node.parts[0]) == 1 and node.parts[0][0] in env:
            return bare(env[node.parts[0][0]].kind)
        if node.kind == "number":
            return node.parts[1]
        if node.kind in ("deref", "view", "lend", "part"):
            return self.kind_of(node.parts[0], env)
        if node.kind == "cast":
            return node.parts[1]
        if node.kind == "binary":
            return self.kind_of(node.parts[1], env) or self.kind_of(node.parts[2], env)
        if node.kind == "field":
            inner = self.kind_of(node.parts[0], env)
            if inner and inner[0] == "name" and self.type_of(inner)[0] == "struct":
                return bare(dict(self.type_of(inner)[1]).get(node.parts[1]))
        if node.kind == "index":
            inner = self.kind_of(node.parts[0], env)
            return bare(inner[1]) if inner and inner[0] in ("array", "slice") else None
        if node.kind == "call":
            fn = self.found(node.parts[0])
            return bare(fn.result) if fn else ("int", BITS[node.parts[0][0]]) if node.parts[0][0] in BITS else None
        return None

    # calls

    def start(self, fn):
        """The function's outcome on drawn arguments: what it answers and what it leaves in what is lent; and where it ended."""
        self.fn, self.sizes = fn, {name: self.chance("size " + name) % 20 for name in fn.sizes}
        given = []
        for name, kind in fn.params:
            given.append(self.draw(kind, name))
            if kind[0] == "int":
                self.echo.append(given[-1])
        known = {name: value for (name, _), value in zip(fn.params, given)}
        for low, sign, high in fn.asks:
            sides = [int(x) if x.isdigit() else known.get(x) for x in (low, high)]
            if all(isinstance(x, int) for x in sides) and not (sides[0] < sides[1] or sign == "≤" and sides[0] == sides[1]):
                raise Trap("not what it requires")
        if not all(self.holds(value) for value in given):
            raise Trap("not what its type promises")
        lent = [Cell(v) for v, (_, kind) in zip(given, fn.params) if kind[0] == "ref" and kind[1]]
        cells = iter(lent)
        given = [Place(next(cells)) if kind[0] == "ref" and kind[1] else v for v, (_, kind) in zip(given, fn.params)]
        answer = self.run(fn, given)
        return told(answer) + "".join(";" + told(c.value) for c in lent), self.end

    def holds(self, value):
        """Whether a drawn value has what its type promises of it."""
        bounds = self.crates[self.crate].invariants.get(value.kind, []) if isinstance(value, Record) else []
        sides = [(self.side(value, low), sign, self.side(value, high)) for low, sign, high in bounds]
        return all(low < high or sign == "≤" and low == high for low, sign, high in sides)

    def side(self, value, words):
        """A side of a bound: a number, a path of fields, or the length of what a path leads to."""
        if words.isdigit():
            return int(words)
        for name in words.removeprefix("length ").removesuffix(".now").split("."):
            value = plain(value.get(name))
        return value.size if words.startswith("length ") else value

    def run(self, fn, given):
        env = {name: Cell(value, kind) for (name, kind), value in zip(fn.params, given)}
        try:
            return self.value(fn.body, env)
        except Returned as r:
            if self.depth == 0:
                self.end = r.args[1]
            return r.args[0]

    def run_called(self, fn, given):
        self.steps += 10
        if fn.body is None:
            raise Unknown("no body of " + fn.name)
        kept = self.fn, self.crate, self.sizes
        size = self.value(self.fn.result[2], {}) if fn.sizes and self.fn.result[0] == "array" else None
        if fn.sizes and size is None:
            raise Unknown("no size of " + fn.name)
        self.fn, self.crate, self.depth, self.sizes = fn, fn.crate, self.depth + 1, dict.fromkeys(fn.sizes, size)
        answer = self.run(fn, given)
        self.fn, self.crate, self.sizes = kept
        self.depth -= 1
        return answer

    def found(self, names):
        """The function of the repository that a path names here; or None."""
        if len(names) > 1 and names[-2][0].isupper():
            return self.method(names[-2], names[-1])
        return find(self.crates, self.crate, self.fn.module, names)

    def method(self, owner, name):
        return next((fn for crate in self.own_first() for fn in [self.crates[crate].method(owner, name)] if fn), None)

    def call(self, names, given):
        name = names[-1]
        kind = names[-2] if len(names) > 1 else None
        if kind in BITS or kind == "char":
            return self.library(name, kind, given)
        if name in ("Some", "Ok", "Err") and not kind:
            return Variant("Option" if name == "Some" else "Result", name, [plain(g) for g in given])
        if kind and kind[0].isupper() and name[0].isupper():
            return Variant(kind, name, given)
        if name[0].isupper():
            return Record(self, name, "", {str(i): v for i, v in enumerate(given)})
        return self.apply(self.found(names) or Fn("", None, name, [], [], UNIT, None, ""), given)  # one of the kit's is taken to answer nothing

    def apply(self, fn, given):
        return self.run_called(fn, given) if fn.crate == self.crate or self.is_plain(fn) else self.unknown(fn, given)

    def is_plain(self, fn):
        """Whether a function is on plain values, without loops, and calls only such."""
        if fn.plain is None:
            fn.plain = False
            calls = [call for call in calls_in(fn) if call[-1][0].islower() and call[-1] not in PLAIN and call[0] not in BITS]
            called = [find(self.crates, fn.crate, fn.module, call) for call in calls]
            fn.plain = bool(fn.body) and not re.search(r"\[|\bwhile\b|\bfor\b", fn.text) and all(self.is_plain_type(kind) for _, kind in fn.params) and all(c and self.is_plain(c) for c in called)
        return fn.plain

    def is_plain_type(self, kind):
        if kind[0] == "ref" and not kind[1]:
            return self.is_plain_type(kind[2])
        if kind[0] != "name":
            return kind[0] in ("int", "bool")
        shape, parts = self.type_of(kind)
        return all(self.is_plain_type(inner) for _, one in parts for inner in (one if shape == "enum" else [one]))

    def unknown(self, fn, given):
        """The answer of an unknown function, and what it leaves in what is lent to it."""
        key = short(fn.crate + fn.module + fn.name + "(%s)" % "|".join(map(told, given)))
        for k, (v, kind) in enumerate(zip(given, [kind for _, kind in fn.params] or [None] * len(given))):
            if isinstance(v, Place):
                old, key_of = v.read(), "%s:%d of %s" % (key, k, told(v))
                v.store(Row(self, old.inner or ("int", 8), old.size, short(key_of)) if isinstance(old, Row) else self.draw(kind, short(key_of)))
        return self.draw(fn.result, key)

    # the library

    def library(self, name, kind, given):
        """A function of a number type or of `char`."""
        if name == "from":
            return int(plain(given[0]))
        if name == "from_be_bytes":
            return int.from_bytes(bytes(plain(given[0]).all()), "big")
        raise Unknown("no function %s::%s" % (kind, name))

    def row(self, values):
        return Row(self, None, len(values), "", dict(enumerate(values)))

    def some(self, value):
        return Variant("Option", "Some", [value])

    def none(self):
        return Variant("Option", "None", [])

    def of_number(self, x, name, given, kind):
        bits = kind[1] if kind and kind[0] == "int" else None
        y = plain(given[0]) if given else 0
        if name in ("min", "max"):
            return {"min": min, "max": max}[name](x, y)
        if name == "saturating_sub":
            return max(0, x - y)
        if name == "count_ones":
            return bin(x).count("1")
        if name == "to_digit":
            found = "0123456789abcdef".find(chr(x).lower())
            return self.some(found) if found >= 0 else self.none()
        if bits is None:
            raise Unknown("no width for " + name)
        if name == "saturating_add":
            return min(2 ** bits - 1, x + y)
        if name == "checked_add":
            return self.some(x + y) if x + y < 2 ** bits else self.none()
        if name in ("wrapping_add", "wrapping_sub"):
            return (x + y if name == "wrapping_add" else x - y) % 2 ** bits
        if name == "to_be_bytes":
            return self.row(list(x.to_bytes(bits // 8, "big")))
        if name == "trailing_zeros":
            return (x & -x).bit_length() - 1 if x else bits
        raise Unknown("no method %s of a number" % name)

    def of_option(self, one, name, given):
        """A method of `Option` or `Result`; the arguments are values or closures."""
        full = one.name in ("Some", "Ok")
        inner = one.inner[0] if one.inner else None
        if name in ("is_some", "is_ok", "is_none", "is_err"):
            return full == (name in ("is_some", "is_ok"))
        if name in ("is_some_and", "is_ok_and"):
            return full and given[0](inner)
        if name == "is_none_or":
            return not full or given[0](inner)
        if name == "map":
            return Variant(one.kind, one.name, [given[0](inner)]) if full else one
        if name == "map_err":
            return one if full else Variant(one.kind, one.name, [given[0](inner)])
        if name == "map_or":
            return given[1](inner) if full else given[0]
        if name == "and_then":
            return given[0](inner) if full else one
        if name in ("ok_or", "ok_or_else"):
            return Variant("Result", "Ok", [inner]) if full else Variant("Result", "Err", [given[0] if name == "ok_or" else given[0]()])
        if name in ("or", "or_else"):
            return one if full else given[0] if name == "or" else given[0](*one.inner)
        if name in ("unwrap_or", "unwrap_or_else"):
            return inner if full else given[0] if name == "unwrap_or" else given[0](*one.inner)
        if name == "ok":
            return self.some(inner) if full else self.none()
        if name in ("copied", "cloned"):
            return Variant(one.kind, one.name, [plain(inner)]) if full else one
        raise Unknown("no method %s of an option" % name)

    def of_row(self, one, row, name, given, env):
        if name == "copy_from_slice":
            into, source = self.lent(one, env), plain(given[0])
            if row.size != source.size:
                raise Trap("copy")
            for i in range(row.size):
                into.at(i).store(source.get(i))
            return 0
        if name == "iter":
            return row.all()
        if name == "fill":
            for i in range(row.size):
                self.lent(one, env).at(i).store(given[0])
            return 0
        if name in ("split_off_first", "split_off_last"):
            if row.size == 0:
                return self.none()
            left, taken = ((1, row.size), 0) if name == "split_off_first" else ((0, row.size - 1), row.size - 1)
            self.lent(one, env).store(row.part(*left))
            return self.some(row.get(taken))
        if name == "iter_mut":
            place = self.lent(one, env)
            return [place.at(i) for i in range(row.size)]
        if name == "get":
            if isinstance(given[0], tuple):
                low, high = given[0][0] or 0, row.size if given[0][1] is None else given[0][1]
                return self.some(row.part(low, high)) if low <= high <= row.size else self.none()
            return self.some(row.get(given[0])) if given[0] < row.size else self.none()
        if name == "is_empty":
            return row.size == 0
        if name == "first":
            return self.some(row.get(0)) if row.size else self.none()
        raise Unknown("no method %s of a slice" % name)

    def of_items(self, items, name, given):
        """A method of an iterator."""
        if name in ("copied", "cloned"):
            return list(map(plain, items))
        if name == "rev":
            return items[::-1]
        if name == "map":
            return [given[0](one) for one in items]
        if name == "filter":
            return [one for one in items if given[0](one)]
        if name in ("position", "rposition"):
            found = [i for i, one in enumerate(items) if given[0](one)]
            return self.some(found[0 if name == "position" else -1]) if found else self.none()
        if name == "fold":
            value = given[0]
            for one in items:
                value = given[1](value, one)
            return value
        if name == "sum":
            return sum(items)
        if name in ("all", "any"):
            return {"all": all, "any": any}[name](given[0](one) for one in items)
        if name == "enumerate":
            return [self.row([i, one]) for i, one in enumerate(items)]
        if name == "zip":
            return [self.row(list(pair)) for pair in zip(items, given[0] if isinstance(given[0], list) else plain(given[0]).all())]
        if name in ("take", "skip"):
            return items[:given[0]] if name == "take" else items[given[0]:]
        raise Unknown("no method %s of an iterator" % name)

    # statements and expressions

    def value(self, node, env):
        self.steps += 1
        if self.steps > MOST_STEPS:
            raise Trap("no end")
        value = DOES[node.kind](self, node.at, env, *node.parts)
        if node.ends and self.depth == 0 and node.kind != "if":
            self.end = node.at
        return value

    def do_if(self, at, env, test, then, other):
        taken = then if plain(self.value(test, env)) else other
        if taken:
            return self.value(taken, env)
        self.end = at if self.depth == 0 else self.end
        return 0

    def do_match(self, at, env, one, arms):
        value = self.value(one, env)
        for pattern, guard, body in arms:
            own = dict(env)
            if self.fits(pattern, value, own) and (guard is None or plain(self.value(guard, own))):
                return self.value(body, own)
        raise Trap("no arm")

    def do_matches(self, at, env, one, pattern, guard):
        own = dict(env)
        return self.fits(pattern, self.value(one, env), own) and (guard is None or plain(self.value(guard, own)))

    def do_return(self, at, env, inner):
        raise Returned(self.value(inner, env) if inner else 0, at)

    def do_try(self, at, env, inner):
        value = plain(self.value(inner, env))
        if value.name in ("Some", "Ok"):
            return value.inner[0]
        raise Returned(self.converted(value), ("?", at))

    def converted(self, failed):
        """What `?` returns: the error in the type of the function's own."""
        wanted = self.fn.result[2][1:] if self.fn.result[0] == "name" and self.fn.result[1] == "Result" else []
        inner = failed.inner[0] if failed.inner else None
        into = self.method(wanted[0][1], "from") if wanted and wanted[0][0] == "name" and isinstance(inner, (Record, Variant)) and inner.kind != wanted[0][1] else None
        return Variant("Result", "Err", [self.apply(into, [inner])]) if into else failed

    def do_block(self, at, env, statements, last):
        own = dict(env)
        for one in statements:
            self.value(one, own)
        return self.value(last, own) if last else 0

    def do_let(self, at, env, pattern, value, other, kind):
        known = kind or self.kind_of(value, env)
        if not self.fits(pattern, self.value(value, env), env):
            self.value(other, env)
        if pattern.kind == "bind":
            env[pattern.parts[0]].kind = known

    def do_number(self, at, env, value, kind):
        return value

    def do_unit(self, at, env):
        return 0

    def do_unreachable(self, at, env):
        raise Trap("unreachable")

    def do_path(self, at, env, names):
        if len(names) == 1 and names[0] in env:
            return env[names[0]].value
        if names[0] in self.sizes:
            return self.sizes[names[0]]
        if names[0] in BITS:
            if names[1] in ("MAX", "MIN"):
                return {"MAX": 2 ** BITS[names[0]] - 1, "MIN": 0}[names[1]]
            return lambda *given: self.library(names[1], names[0], list(given))
        if names == ["None"]:
            return self.none()
        if names in (["Some"], ["Ok"], ["Err"]):
            return lambda *given: self.call(names, list(given))
        for crate in self.own_first():
            if names[-1] in self.crates[crate].consts:
                return self.value(self.crates[crate].consts[names[-1]], {})
        if len(names) > 1 and names[-1][0].isupper():
            return Variant(names[-2], names[-1], [])
        fn = self.found(names)
        if fn:
            return lambda *given: self.apply(fn, list(given))
        raise Unknown("no name " + names[-1])

    def do_closure(self, at, env, params, body):
        def run(*given):
            own = dict(env)
            for (pattern, kind), value in zip(params, given):
                self.fits(pattern, value, own)
                if pattern.kind == "bind":
                    own[pattern.parts[0]].kind = kind
            return plain(self.value(body, own))
        return run

    def do_call(self, at, env, names, given):
        values = [self.value(g, env) for g in given]
        if len(names) == 1 and names[0] in env:
            return env[names[0]].value(*values)
        return self.call(names, values)

    def do_struct(self, at, env, name, given, base):
        own = {n: self.value(v, env) for n, v in given}
        if base is None:
            return Record(self, name, "", own)
        value = plain(self.value(base, env))
        for n, v in own.items():
            value = value.put(n, v)
        return value

    def do_field(self, at, env, one, name):
        return plain(self.value(one, env)).get(name)

    def do_index(self, at, env, one, i):
        return plain(self.value(one, env)).get(plain(self.value(i, env)))

    def ends_of(self, env, size, low, high):
        return plain(self.value(low, env)) if low else 0, plain(self.value(high, env)) if high else size

    def do_part(self, at, env, one, low, high):
        row = plain(self.value(one, env))
        return row.part(*self.ends_of(env, row.size, low, high))

    def do_span(self, at, env, low, high, closed):
        first, last = plain(self.value(low, env)) if low else None, plain(self.value(high, env)) if high else None
        return (first, last + closed if last is not None else None)

    def do_view(self, at, env, one):
        return plain(self.value(one, env))

    def do_deref(self, at, env, one):
        return plain(self.value(one, env))

    def do_lend(self, at, env, one):
        return self.lent(one, env)

    def lent(self, node, env):
        """The place that a piece of code names."""
        if node.kind == "path" and node.parts[0][0] in env:
            cell = env[node.parts[0][0]]
            return cell.value if isinstance(cell.value, Place) else Place(cell)
        if node.kind == "field":
            return self.lent(node.parts[0], env).at(node.parts[1])
        if node.kind == "index":
            return self.lent(node.parts[0], env).at(plain(self.value(node.parts[1], env)))
        if node.kind == "part":
            place = self.lent(node.parts[0], env)
            return place.at(self.ends_of(env, place.read().size, *node.parts[1:]))
        value = self.value(node, env)
        return value if isinstance(value, Place) else Place(Cell(value))

    def do_method(self, at, env, one, name, given):
        value = plain(self.value(one, env))
        if isinstance(value, tuple):
            value = list(range(value[0] or 0, value[1]))
        if isinstance(value, (Record, Variant)):
            fn = self.method(value.kind, name)
            if fn:
                own = self.lent(one, env) if fn.params[0][1][0] == "ref" and fn.params[0][1][1] else value
                return self.apply(fn, [own] + [self.value(g, env) for g in given])
        values = [self.value(g, env) for g in given]
        if isinstance(value, int):
            kind = self.kind_of(one, env)
            fn = self.method("u%d" % kind[1], name) if kind and kind[0] == "int" else None
            return self.apply(fn, [value] + values) if fn else self.of_number(value, name, values, kind)
        if isinstance(value, list):
            return self.of_items(value, name, values)
        if isinstance(value, Variant) and value.kind in ("Option", "Result"):
            return self.of_option(value, name, values)
        if isinstance(value, Row):
            return self.of_row(one, value, name, values, env)
        raise Unknown("no method " + name)

    def do_len(self, at, env, one):
        return plain(self.value(one, env)).size

    def do_array(self, at, env, given):
        return self.row([self.value(g, env) for g in given])

    def do_repeat(self, at, env, one, size):
        value, n = self.value(one, env), self.value(size, env)
        return Row(self, None, n, "", {i: value for i in range(n)})

    def do_not(self, at, env, one):
        value = plain(self.value(one, env))
        if not isinstance(value, bool):
            raise Unknown("! of a number")
        return not value

    def do_cast(self, at, env, one, kind):
        value = plain(self.value(one, env))
        value = self.code_of(value) if isinstance(value, Variant) else int(value)
        if value >= 2 ** kind[1]:
            raise Trap("cast")
        return value

    def code_of(self, variant):
        return next(self.crates[crate].codes[variant.kind, variant.name] for crate in self.own_first() if (variant.kind, variant.name) in self.crates[crate].codes)

    def do_binary(self, at, env, op, a, b):
        x = plain(self.value(a, env))
        if op in ("&&", "||"):
            return plain(self.value(b, env)) if x == (op == "&&") else x
        return self.joined(op, x, plain(self.value(b, env)))

    def joined(self, op, x, y):
        if op in ("==", "!="):
            return (told(x) == told(y)) == (op == "==")
        if op in ("<", ">", "<=", ">="):
            return {"<": x < y, ">": x > y, "<=": x <= y, ">=": x >= y}[op]
        if op in ("/", "%") and y == 0 or op == "-" and x < y or op in ("<<", ">>") and y > 63:
            raise Trap(op)
        value = {"+": lambda: x + y, "-": lambda: x - y, "*": lambda: x * y, "/": lambda: x // y, "%": lambda: x % y, "|": lambda: x | y,
                 "&": lambda: x & y, "^": lambda: x ^ y, "<<": lambda: (x << y) % 2 ** 64, ">>": lambda: x >> y}[op]()
        if value >= 2 ** 64:
            raise Trap(op)
        return value

    def fits(self, pattern, value, env):
        kind, parts = pattern.kind, pattern.parts
        if kind == "bind":
            env[parts[0]] = Cell(value)
            return True
        value = plain(value)
        if kind == "is":
            return value == parts[0]
        if kind == "range":
            return parts[0] <= value <= parts[1]
        if kind == "either":
            return any(self.fits(p, value, env) for p in parts[0])
        if kind == "case":
            inner = value.inner if isinstance(value, Variant) else [value.get(str(i)) for i in range(len(parts[1]))]
            return parts[0] in (getattr(value, "name", None), value.kind) and all(self.fits(p, v, env) for p, v in zip(parts[1], inner))
        if kind == "row":
            return value.size == len(parts[0]) and all(self.fits(p, value.get(i), env) for i, p in enumerate(parts[0]))
        if kind == "fields":
            return all(self.fits(p, value.get(name), env) for name, p in parts[1])
        return True

    def do_while(self, at, env, test, body):
        while plain(self.value(test, env)):
            try:
                self.value(body, env)
            except Left as left:
                if left.args[0] == "break":
                    break
        return 0

    def do_for(self, at, env, pattern, items, body):
        items = plain(self.value(items, env))
        for one in range(items[0], items[1]) if isinstance(items, tuple) else items.all() if isinstance(items, Row) else items:
            own = dict(env)
            self.fits(pattern, one, own)
            try:
                self.value(body, own)
            except Left as left:
                if left.args[0] == "break":
                    break
        return 0

    def do_break(self, at, env):
        raise Left("break")

    def do_continue(self, at, env):
        raise Left("continue")

    def do_assign(self, at, env, op, place, given):
        value = self.value(given, env)
        value = value if place.kind == "path" and not op else plain(value)
        if op:
            value = self.joined(op, plain(self.value(place, env)), value)
        if place.kind == "path" and not isinstance(env[place.parts[0][0]].value, Place):
            env[place.parts[0][0]].value = value
        else:
            self.lent(place.parts[0] if place.kind == "deref" else place, env).store(value)
        return 0


def bare(kind):
    """A type without `&`."""
    while kind and kind[0] == "ref":
        kind = kind[2]
    return kind


PLAIN = {"count_ones", "min", "max", "saturating_sub", "saturating_add", "wrapping_add", "wrapping_sub", "unwrap_or", "is_some_and", "map_or", "ok_or", "is_some", "is_none", "map"}
DOES = {name[3:]: does for name, does in vars(Run).items() if name.startswith("do_")}


def pool_of(crate, *fns):
    """The numbers of functions and of those of the crate that they call, and their neighbours."""
    called = {name for fn in fns for name in re.findall(r"\b(\w+)\(", fn.text)} & set(crate.fns)
    texts = [fn.text for fn in fns] + [fn.text for name in called for fn in crate.fns[name]]
    numbers = {int(n.replace("_", ""), 0) for t in texts for n in re.findall(r"\b(?:0x[0-9A-Fa-f_]+|\d[\d_]*?)(?=\b|u\d)", t)}
    return sorted({n + d for n in numbers | {0, 1} for d in (-1, 0, 1) if 0 <= n + d < 2 ** 64})


def differences(crates, edited, right, wrong, least, most, enough):
    """The ends at which the wrong function has another outcome than the right one, over random runs of `most` steps in all.

    After `least` steps it stops as soon as `enough` holds for the ends found."""
    found, with_edit = set(), dict(crates, **{edited.name: edited})
    pool = pool_of(edited, right, wrong)
    seed = steps = 0
    while steps < most and not (steps > least and enough(found)):
        seed += 1
        one, other = Run(crates, edited.name, pool, seed), Run(with_edit, edited.name, pool, seed)
        try:
            expected, _ = one.start(right)
            outcome, end = other.start(wrong)
            if outcome != expected:
                found.add(end)
        except Trap:
            pass
        except (AttributeError, KeyError, TypeError, ValueError, RecursionError) as e:
            raise Unknown("%s: %s" % (type(e).__name__, e))
        steps += one.steps + other.steps + 20
    return found
