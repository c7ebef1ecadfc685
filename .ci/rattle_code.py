"""Parses Rattle code: functions, methods, types and constants of a crate, and the places at which a function ends.

Contracts are skipped, except simple bounds on arguments (`requires`)."""
import glob
import os
import re

from rattle_text import clauses, functions, used

TOKEN = re.compile(r"""(?:\s+|//[^\n]*)*(?:(?P<text>b?"(?:\\.|[^"\\])*")|(?P<char>b?'(?:\\.|[^'\\])')|(?P<num>0x[0-9A-Fa-f_]+|[0-9][0-9_]*)(?P<suffix>u8|u16|u32|u64|usize)?
    |(?P<life>'\w+)|(?P<name>[A-Za-z_]\w*)|(?P<op><<=|>>=|\.\.=|::|->|=>|==|!=|<=|>=|&&|\|\||<<|>>|[-+*/%|&^]=|\.\.|[-+*/%&|^!=<>.,;:?(){}\[\]\#@])|(?P<end>$))""", re.X)
NOT_CODE = re.compile(r"^ *(?:(?:requires|ensures)\b[^{\n]*\{|(?:pub )?ghost (?:use\b[^;]*;|.*$)|#!?\[[^\n]*\]$)", re.M)
ASKED = re.compile(r"\(?(\w+) ([≤<]) (\w+)\)?")
INVARIANT = re.compile(r"^ +ghost \w+: \{ ((?:length )?[\w.]+) ([≤<]) ((?:length )?[\w.]+) \},$", re.M)
STRUCT = re.compile(r"^(?:pub(?:\(crate\))? )?struct (\w+)[^;{]*\{\n(.*?)^\}", re.M | re.S)
HANDED = re.compile(r"\.(?:map|map_err|map_or|and_then|or_else|is_some_and|unwrap_or_else)\((?:\w+, )?([\w:]+)\)")
BITS = {"u8": 8, "u16": 16, "u32": 32, "u64": 64, "usize": 64}
LEVELS = [["||"], ["&&"], ["==", "!=", "<", ">", "<=", ">="], ["|"], ["^"], ["&"], ["<<", ">>"], ["+", "-"], ["*", "/", "%"]]
ESCAPES = {"n": 10, "t": 9, "r": 13, "0": 0, "\\": 92, "'": 39, '"': 34}
UNIT = ("unit",)


class Unknown(Exception):
    """A form that this cannot parse or run."""


class Node:
    """A piece of code: its kind, its parts, and where it stands. `ends` is set if the function ends with its value."""

    def __init__(self, kind, at, *parts):
        self.kind, self.at, self.parts, self.ends = kind, at, parts, False


class Fn:
    """A function or a method of a type (`owner`). `ends` are the places at which it ends, in the order of the code, each with its label;
    `sizes` are its const parameters, `asks` the bounds that it requires; `plain` is set by `rattle_run`."""

    def __init__(self, crate, owner, name, sizes, params, result, body, text):
        self.crate, self.owner, self.name, self.sizes, self.params, self.result, self.body, self.text = crate, owner, name, sizes, params, result, body, text
        self.asks, self.module, self.plain = [], "", None
        self.ends = ends_of(body, "") if body else []

    def goals_at(self, goals):
        """By end of the function, the goals that can be about it, of the goals at its returns in the prover's order.

        A goal's name says to which kind of branch it belongs, and so does an end's label. Goals and ends with one label are taken in turn if they are as
        many; otherwise each such goal can be about each such end, as where several patterns lead to one arm. So can goals and ends whose labels have no counterpart.
        A value that is chosen by branches has a goal for each of them."""
        by_label = {}
        for k, of in enumerate(([(label, end) for end, label, _ in self.ends], [(label_of(goal), goal) for goal in goals])):
            for label, one in of:
                by_label.setdefault(label, ([], []))[k].append(one)
        lone = [sum((pair[k] for pair in by_label.values() if not pair[1 - k]), []) for k in (0, 1)]
        if lone[0] and not lone[1]:
            raise Unknown("its ends are not the returns that the prover has")
        found = {end: set(lone[1]) for end in lone[0]}
        for ends, of in by_label.values():
            if of:
                found.update({end: {of[k]} if len(ends) == len(of) else set(of) for k, end in enumerate(ends)})
        for end, _, inner in self.ends:
            found[end] |= {goal for goal in lone[1] if label_of(goal) in inner}
        return found


def label_of(goal):
    """The label of the branch that a goal at a return is named after: `then`, `else`, `err`, `default`, the name of a pattern, or nothing."""
    found = re.match(r"returns-(?:(then|else)\b|in_(err|default)\b|in-(\w+))", goal)
    return next(filter(None, found.groups())) if found else ""


def label_in(pattern):
    """The label of an arm with this pattern."""
    while pattern.kind in ("either", "row"):
        pattern = pattern.parts[0][0]
    return str(pattern.parts[0]) if pattern.kind in ("is", "case", "fields") else "default"


def ends_of(node, label):
    """The places at which a function ends whose body, or what is left of it, this is: each `return`, each `?` that finds no value, and the value at the end.
    Each with its label and with those of the branches in its value."""
    kind, parts = node.kind, node.parts
    if kind == "block":
        before = [end for one in parts[0] for end in returns_in(one, label)]
        if parts[1]:
            return before + ends_of(parts[1], label)
        node.ends = not is_left(parts[0][-1:])
        return before + ([(node.at, label, set())] if node.ends else [])
    if kind == "if":
        node.ends = parts[2] is None
        return returns_in(parts[0], label) + ends_of(parts[1], "then") + (ends_of(parts[2], "else") if parts[2] else [(node.at, "else", set())])
    if kind == "match":
        return returns_in(parts[0], label) + [end for pattern, _, body in parts[1] for end in ends_of(body, label_in(pattern))]
    node.ends = not is_left([node])
    return returns_in(node, label) + ([(node.at, label, labels_in(node))] if node.ends else [])


def is_left(last):
    """Whether a piece of code never comes to its end: a `return`, an `unreachable!`, or a loop that only `return` leaves."""
    one = last[0] if last else None
    return bool(one) and (one.kind in ("return", "unreachable") or one.kind == "while" and one.parts[0].kind == "number" and "break" not in kinds_in(one.parts[1]))


def returns_in(node, label):
    """The `return`s and `?`s in a piece of code, in the order in which it runs."""
    kind, parts = node.kind, node.parts
    if kind == "closure":
        return []
    if kind == "if":
        return returns_in(parts[0], label) + returns_in(parts[1], "then") + (returns_in(parts[2], "else") if parts[2] else [])
    if kind == "match":
        return returns_in(parts[0], label) + [end for pattern, _, body in parts[1] for end in returns_in(body, label_in(pattern))]
    if kind == "let" and parts[2]:
        return returns_in(parts[1], label) + returns_in(parts[2], "default")
    found = [end for one in inside(node) for end in returns_in(one, label)]
    return found + [(node.at, label, labels_in(node))] if kind == "return" else found + [(("?", node.at), "err", set())] if kind == "try" else found


def labels_in(node):
    """The labels of the branches in a value."""
    if node.kind == "closure":
        return set()
    own = {"then", "else"} if node.kind == "if" else {label_in(pattern) for pattern, _, _ in node.parts[1]} if node.kind == "match" else set()
    return own.union(*map(labels_in, inside(node)))


def inside(node):
    """The pieces of which a piece of code is made."""
    each = [one for part in node.parts for one in (part if isinstance(part, list) else [part])]
    each = [piece for one in each for piece in (one if isinstance(one, tuple) else [one])]
    return [one for one in each if isinstance(one, Node)]


def kinds_in(node):
    """The kinds of a piece of code and of all in it."""
    return {node.kind}.union(*map(kinds_in, inside(node)))


def only_code(text):
    """The text of a file without clauses, ghost items and attributes of one line."""
    kept, at = [], 0
    while found := NOT_CODE.search(text, at):
        kept.append(text[at:found.start()])
        at, depth = found.end(), found[0].endswith("{")
        while depth:
            depth += (text[at] == "{") - (text[at] == "}")
            at += 1
    return "".join(kept) + text[at:]


class Parser:
    """Reads the text of a file, word by word. `owner` is the type whose `impl` is read, `any` has the type parameters of a function: each is taken for u8."""

    def __init__(self, text):
        self.uses = {path[-1]: path for _, path in used(text)}
        text = only_code(text)
        self.text, self.words, self.k, self.owner, self.any = text, [], 0, None, []
        at = 0
        while at < len(text):
            found = TOKEN.match(text, at)
            if not found:
                raise Unknown("no word of Rattle: " + text[at:at + 20])
            kind = "num" if found.lastgroup == "suffix" else found.lastgroup
            self.words.append((kind, found[kind], found.start(kind), found["suffix"]))
            at = found.end()
        if not self.words or self.words[-1][0] != "end":
            self.words.append(("end", "", len(text), None))

    def now(self):
        return self.words[self.k][1]

    def kind(self):
        return self.words[self.k][0]

    def at(self):
        return self.words[self.k][2]

    def take(self, word=None):
        got = self.words[self.k]
        if word is not None and got[1] != word:
            raise Unknown("%r where %r should stand" % (got[1], word))
        self.k += 1
        return got[1]

    def took(self, word):
        if self.now() == word and self.kind() in ("op", "name"):
            self.k += 1
            return True
        return False

    def took_life(self):
        if self.kind() == "life":
            self.take()

    def listed(self, close, one):
        found = []
        while not self.took(close):
            found.append(one())
            if not self.took(","):
                self.take(close)
                break
        return found

    def skip_braces(self, opened="{", close="}"):
        depth = 0
        while True:
            word = self.take()
            depth += (word == opened) - (word == close)
            if depth == 0:
                return

    # types

    def type(self):
        if self.took("&"):
            self.took_life()
            return ("ref", self.took("mut"), self.type())
        if self.took("["):
            inner = self.type()
            if self.took(";"):
                size = self.expression()
                self.take("]")
                return ("array", inner, size)
            self.take("]")
            return ("slice", inner)
        if self.took("("):
            inner = self.listed(")", self.type)
            return ("tuple", inner) if inner else UNIT
        name, given = self.path()[-1], []
        if self.took("<"):
            given = self.angled(self.argument)
        return ("int", BITS.get(name, 8)) if name in BITS or name in self.any else ("bool",) if name == "bool" else ("name", name, given)

    def argument(self):
        """An argument of a type; a lifetime is none."""
        if self.kind() == "life":
            self.take()
            return None
        return self.type()

    def angled(self, one):
        """A list up to `>`, which can be the first half of `>>`."""
        found = []
        while self.now() not in (">", ">>"):
            found.append(one())
            if not self.took(","):
                break
        if self.now() == ">>":
            self.words[self.k] = ("op", ">", self.at() + 1, None)
        else:
            self.take(">")
        return [part for part in found if part]

    def generics(self):
        """The const parameters of an item."""
        return self.angled(self.generic) if self.took("<") else []

    def generic(self):
        """The name of a const parameter; of a type, which is noted, or a lifetime nothing."""
        sized, kind = self.took("const"), self.kind()
        name = self.take()
        if kind == "name" and not sized:
            self.any.append(name)
        if self.took(":"):
            self.type() if sized else self.bound()
        return name if sized else None

    def bound(self):
        self.type()
        while self.took("+"):
            self.type()

    def path(self):
        names = [self.take()]
        while self.now() == "::":
            self.take()
            if self.took("<"):
                self.angled(self.argument)
            else:
                names.append(self.take())
        return [self.owner if name == "Self" and self.owner else name for name in names]

    # items

    def items(self, crate):
        """The functions, types and constants of a file, and the numbers of the variants of its enums."""
        self.crate, self.codes = crate, {}
        fns, types, consts = [], {}, {}
        while self.kind() != "end":
            if self.took("#"):
                self.took("!")
                self.skip_braces("[", "]")
                continue
            self.public()
            word = self.take()
            if word in ("use", "mod"):
                self.skip_until(";")
            elif word == "const":
                name = self.take()
                self.take(":")
                kind = self.type()
                self.take("=")
                start = self.at()
                consts[name] = self.expression()
                consts[name].text, consts[name].type = self.text[start:self.at()], kind
                self.take(";")
            elif word == "struct":
                name = self.take()
                self.generics()
                types[name] = ("struct", self.fields())
            elif word == "enum":
                name = self.take()
                self.generics()
                self.take("{")
                self.next_code = 0
                types[name] = ("enum", self.listed("}", lambda: self.variant(name)))
            elif word == "impl":
                fns += self.implementation()
            elif word == "trait":
                self.take()
                if self.took(":"):
                    self.bound()
                fns += self.methods("Self")
            elif word == "extern":
                self.take()
            elif word == "fn":
                fns.append(self.function())
            else:
                raise Unknown("no item of Rattle: " + word)
        return fns, types, consts, self.codes

    def implementation(self):
        self.generics()
        owner = self.type()
        if self.took("for"):
            owner = self.type()
        return self.methods(owner[1] if owner[0] == "name" else "u%d" % owner[1] if owner[0] == "int" else owner[0])

    def methods(self, owner):
        self.owner, found = owner, []
        self.take("{")
        while not self.took("}"):
            self.public()
            self.take("fn")
            found.append(self.function())
        self.owner = None
        return found

    def fields(self):
        if self.took("("):
            inner = self.listed(")", lambda: (self.public(), self.type())[1])
            self.take(";")
            return [(str(i), t) for i, t in enumerate(inner)]
        if self.took(";"):
            return []
        self.take("{")
        return self.listed("}", self.field)

    def public(self):
        if self.took("pub") and self.now() == "(":
            self.skip_braces("(", ")")

    def field(self):
        self.public()
        name = self.take()
        self.take(":")
        return name, self.type()

    def variant(self, of):
        name = self.take()
        inner = self.listed(")", self.type) if self.took("(") else []
        if self.took("="):
            self.next_code = self.number()
        self.codes[of, name] = self.next_code
        self.next_code += 1
        return name, inner

    def function(self):
        name, self.any = self.take(), []
        start = self.at()
        sizes = self.generics()
        self.take("(")
        params = self.listed(")", self.parameter)
        result = self.type() if self.took("->") else UNIT
        if self.took("where"):
            while self.now() != "{":
                self.take()
        if self.took(";"):
            return Fn(self.crate, self.owner, name, sizes, params, result, None, "")
        body = self.block()
        return Fn(self.crate, self.owner, name, sizes, params, result, body, re.sub(r"\s+", " ", self.text[start:self.words[self.k - 1][2]]))

    def skip_until(self, word):
        while self.take() != word:
            pass

    def parameter(self):
        lent = self.took("&")
        if lent:
            self.took_life()
        changed = self.took("mut")
        name = self.take()
        if name == "self":
            own = ("int", BITS[self.owner]) if self.owner in BITS else (self.owner,) if self.owner == "bool" else ("name", self.owner, [])
            return name, ("ref", changed, own) if lent else own
        self.take(":")
        return name, self.type()

    # statements and expressions

    def block(self):
        at = self.at()
        self.take("{")
        statements = []
        while True:
            if self.took("}"):
                return Node("block", at, statements, None)
            if self.took(";"):
                continue
            if self.now() == "let":
                statements.append(self.let())
                continue
            closed = self.now() in ("if", "match", "while", "for", "loop", "{")
            one = self.simple(False) if closed else self.expression()
            if closed and self.now() == ".":
                one = self.after(one)
            if self.took("}"):
                return Node("block", at, statements, one)
            if not self.took(";") and not closed:
                raise Unknown("no end of a statement before " + self.now())
            statements.append(one)

    def let(self):
        at = self.at()
        self.take("let")
        pattern = self.pattern()
        kind = self.type() if self.took(":") else None
        self.take("=")
        value = self.expression()
        other = self.block() if self.took("else") else None
        self.take(";")
        return Node("let", at, pattern, value, other, kind)

    def pattern(self):
        at = self.at()
        self.took("|")
        found = [self.pattern_one()]
        while self.took("|"):
            found.append(self.pattern_one())
        return found[0] if len(found) == 1 else Node("either", at, found)

    def pattern_one(self):
        at = self.at()
        self.took("&")
        self.took("mut")
        if self.kind() in ("num", "char"):
            low = self.number()
            if self.took("..="):
                return Node("range", at, low, self.number())
            return Node("is", at, low)
        if self.took("(") or self.took("["):
            return Node("row", at, self.listed({"(": ")", "[": "]"}[self.words[self.k - 1][1]], self.pattern))
        names = self.path()
        inner = self.listed(")", self.pattern) if self.took("(") else []
        if names == ["_"]:
            return Node("any", at)
        if names in (["true"], ["false"]):
            return Node("is", at, names == ["true"])
        if self.now() == "{" and names[-1][0].isupper():
            self.take()
            return Node("fields", at, names[-1], [one for one in self.listed("}", self.pattern_field) if one])
        if len(names) == 1 and not inner and not names[0][0].isupper():
            return Node("bind", at, names[0])
        return Node("case", at, names[-1], inner)

    def pattern_field(self):
        if self.took(".."):
            return None
        at, name = self.at(), self.take()
        return name, self.pattern() if self.took(":") else Node("bind", at, name)

    def number(self):
        kind, word = self.words[self.k][:2]
        self.k += 1
        if kind == "char":
            inside = word[word.index("'") + 1:-1]
            return ESCAPES[inside[1]] if inside[0] == "\\" else ord(inside)
        return int(word.replace("_", ""), 0)

    def expression(self, bare=False):
        """`bare`: no struct literal, as before the block of an `if`."""
        at = self.at()
        if self.took("return"):
            return Node("return", at, None if self.now() in (";", "}", ",") else self.expression(bare))
        if self.now() in ("break", "continue"):
            return Node(self.take(), at)
        if self.now() in ("|", "||"):
            return self.closure()
        place = self.level(0, bare)
        if self.now() in ("..", "..="):
            closed = self.take() == "..="
            return Node("span", at, place, None if self.now() in (")", "]") else self.level(0, bare), closed)
        for op in ("=", "+=", "-=", "*=", "/=", "%=", "|=", "&=", "^=", "<<=", ">>="):
            if self.took(op):
                return Node("assign", at, op[:-1], place, self.expression(bare))
        return place

    def closure(self):
        at = self.at()
        params = [] if self.took("||") else (self.take("|"), self.listed("|", self.closure_parameter))[1]
        if self.took("->"):
            self.type()
        return Node("closure", at, params, self.expression())

    def closure_parameter(self):
        pattern = self.pattern_one()
        return pattern, self.type() if self.took(":") else None

    def level(self, n, bare):
        if n == len(LEVELS):
            return self.cast(bare)
        at = self.at()
        left = self.level(n + 1, bare)
        while self.kind() == "op" and self.now() in LEVELS[n]:
            op = self.take()
            left = Node("binary", at, op, left, self.level(n + 1, bare))
        return left

    def cast(self, bare):
        at = self.at()
        one = self.unary(bare)
        while self.took("as"):
            one = Node("cast", at, one, self.type())
        return one

    def unary(self, bare):
        at = self.at()
        if self.took("!"):
            return Node("not", at, self.unary(bare))
        if self.took("*"):
            return Node("deref", at, self.unary(bare))
        if self.took("&"):
            return Node("lend" if self.took("mut") else "view", at, self.unary(bare))
        return self.after(self.simple(bare))

    def after(self, one):
        while True:
            at = self.at()
            if self.took("?"):
                one = Node("try", at, one)
            elif self.took("."):
                name = self.take()
                if self.now() == "::":
                    self.take()
                    self.take("<")
                    self.angled(self.argument)
                if name == "len" and self.took("("):
                    self.take(")")
                    one = Node("len", at, one)
                elif self.took("("):
                    one = Node("method", at, one, name, self.listed(")", self.expression))
                else:
                    one = Node("field", at, one, name)
            elif self.took("["):
                low = None if self.now() == ".." else self.level(0, False)
                if self.took(".."):
                    high = None if self.now() == "]" else self.level(0, False)
                    one = Node("part", at, one, low, high)
                else:
                    one = Node("index", at, one, low)
                self.take("]")
            elif self.now() == "(" and one.kind == "path":
                self.take()
                one = Node("call", one.at, one.parts[0], self.listed(")", self.expression))
            else:
                return one

    def simple(self, bare):
        at, (kind, word) = self.at(), self.words[self.k][:2]
        if kind in ("num", "char"):
            bits = BITS.get(self.words[self.k][3])
            return Node("number", at, self.number(), ("int", bits) if bits else None)
        if kind == "text":
            self.take()
            inside = re.findall(r"\\.|[^\\]", word[word.index('"') + 1:-1])
            return Node("array", at, [Node("number", at, ESCAPES[c[1]] if c[0] == "\\" else ord(c), ("int", 8)) for c in inside])
        if self.took("("):
            if self.took(")"):
                return Node("unit", at)
            one = self.expression()
            if self.took(")"):
                return one
            self.take(",")
            return Node("array", at, [one] + self.listed(")", self.expression))
        if self.took("["):
            if self.took("]"):
                return Node("array", at, [])
            first = self.expression()
            if self.took(";"):
                size = self.expression()
                self.take("]")
                return Node("repeat", at, first, size)
            if self.took("]"):
                return Node("array", at, [first])
            self.take(",")
            return Node("array", at, [first] + self.listed("]", self.expression))
        if word == "{":
            return self.block()
        if self.took(".."):
            return Node("span", at, None, None if self.now() in (")", "]") else self.level(0, bare), False)
        if self.took("if"):
            return self.condition(at)
        if self.took("match"):
            value = self.expression(True)
            self.take("{")
            arms = []
            while not self.took("}"):
                arms.append(self.arm())
                self.took(",")
            return Node("match", at, value, arms)
        if self.took("while"):
            return Node("while", at, self.expression(True), self.block())
        if self.took("for"):
            pattern = self.pattern_one()
            self.take("in")
            return Node("for", at, pattern, self.expression(True), self.block())
        if self.took("loop"):
            return Node("while", at, Node("number", at, True, None), self.block())
        if kind != "name":
            raise Unknown("no expression begins with " + word)
        names = self.path()
        if names in (["true"], ["false"]):
            return Node("number", at, names == ["true"], ("bool",))
        if self.now() == "!" and self.words[self.k + 1][1] == "(":
            return self.macro(at, names[0])
        if self.now() == "{" and not bare and names[-1][0].isupper():
            self.take()
            given = self.listed("}", self.given)
            return Node("struct", at, names[-1], [one for one in given if one[0]], next((value for name, value in given if not name), None))
        return Node("path", at, names)

    def macro(self, at, name):
        self.take("!")
        self.take("(")
        if name == "matches":
            value = self.expression()
            self.take(",")
            pattern = self.pattern()
            guard = self.expression() if self.took("if") else None
            self.took(",")
            self.take(")")
            return Node("matches", at, value, pattern, guard)
        if name == "unreachable":
            self.take(")")
            return Node("unreachable", at)
        raise Unknown("no macro " + name)

    def arm(self):
        pattern = self.pattern()
        guard = self.expression() if self.took("if") else None
        self.take("=>")
        return pattern, guard, self.expression()

    def given(self):
        if self.took(".."):
            return "", self.expression()
        at, name = self.at(), self.take()
        return name, self.expression() if self.took(":") else Node("path", at, [name])

    def condition(self, at):
        if self.took("let"):
            pattern = self.pattern()
            self.take("=")
            value, then = self.expression(True), self.block()
            return Node("match", at, value, [(pattern, None, then), (Node("any", at), None, self.otherwise(at) or Node("unit", self.words[self.k - 1][2]))])
        return Node("if", at, self.expression(True), self.block(), self.otherwise(at))

    def otherwise(self, at):
        if not self.took("else"):
            return None
        return self.condition(self.words[self.k - 1][2]) if self.took("if") else self.block()


def asked(contract):
    """The bounds on arguments that a contract's `requires` clauses ask for, each as a clause or a part of one: (low, sign, high)."""
    parts = [part for kind, _, said in clauses(contract) if kind == "requires" for part in said.split(" × ")]
    return [found.groups() for found in map(ASKED.fullmatch, parts) if found]


class Crate:
    """The code of a crate, from its files' texts. `invariants` are the bounds that a struct's ghost fields promise: (low, sign, high)."""

    def __init__(self, name, texts):
        self.name, self.fns, self.types, self.consts, self.codes, self.uses, self.invariants = name, {}, {}, {}, {}, {}, {}
        for file, text in sorted(texts.items()):
            parser = Parser(text)
            fns, types, consts, codes = parser.items(name)
            self.uses.update(parser.uses)
            self.invariants.update((struct[1], INVARIANT.findall(struct[2])) for struct in STRUCT.finditer(text))
            contracts = {(owner or None, name): contract for _, owner, name, _, contract in functions(text)}
            for fn in fns:
                fn.module = os.path.basename(file)[:-3]
                fn.asks = asked(contracts.get((fn.owner, fn.name), ""))
                self.fns.setdefault(fn.name, []).append(fn)
            self.types.update(types)
            self.consts.update(consts)
            self.codes.update(codes)
        for fn in [fn for fns in self.fns.values() for fn in fns]:
            fn.text += "".join(" " + self.consts[name].text for name in self.consts if re.search(r"\b%s\b" % name, fn.text))
            fn.text += "".join(" %s::%s=%d" % (*name, code) for name, code in self.codes.items() if " as " in fn.text and re.search(r"\b%s\b" % name[0], "%s %s" % (fn.owner, fn.text)))

    def named(self, name, module):
        """The function of that name, of that module if there is one; or None. A method's module can be its type."""
        found = self.fns.get(name, [])
        return next((fn for fn in found if module in (fn.owner or fn.module, fn.module)), found[0] if found else None)

    def method(self, owner, name):
        """The method of that name of a type; or None."""
        return next((fn for fn in self.fns.get(name, []) if fn.owner == owner), None)


def find(crates, crate, module, names):
    """The function that a module of a crate calls by a path, in whatever crate; or None. A path that begins with a dot is a method's."""
    if names[0] == ".":
        found = [fn for name in [crate] + [path[0] for path in crates[crate].uses.values() if path[0] in crates] for fn in crates[name].fns.get(names[1], []) if fn.owner]
        return found[0] if found else None
    inside = len(names) == 1 or names[0] not in crates
    fn = crates[crate].named(names[-1], names[-2] if len(names) > 1 else module) if inside else None
    while fn is None and names:
        if len(names) == 1 or names[0] not in crates:
            used = crates[crate].uses.get(names[-1]) or crates[crate].uses.get(names[0]) and crates[crate].uses[names[0]] + names[1:]
            names = used if used != names else None
            continue
        crate = names[0]
        fn = crates[crate].named(names[-1], names[-2] if len(names) > 2 else "lib")
        names = names[-1:]
    return fn


def calls_in(fn):
    """The paths that stand before an argument list in a function's body, or are handed to a method as a function; that of a method begins with a dot."""
    body = fn.text[fn.text.find("{"):]
    handed = [("", path) for path in HANDED.findall(body)]
    return [([".", path] if dot else path.replace("Self", fn.owner or "Self").split("::")) for dot, path in re.findall(r"((?<!\.)\.)?([\w:]+)\(", body) + handed]


def reached(crates, fn):
    """A function and all that it calls, at any distance: (crate, name)."""
    found, todo = set(), [fn]
    while todo:
        one = todo.pop()
        if one and (one.crate, one.name) not in found:
            found.add((one.crate, one.name))
            todo += [find(crates, one.crate, one.module, names) for names in calls_in(one)]
    return found


def texts_of(folder):
    """The texts of a crate's code, by file."""
    return {os.path.relpath(p, folder): open(p, encoding="utf-8").read() for p in sorted(glob.glob(folder + "/src/**/*.rt", recursive=True))}


def load(root):
    """Every crate of a repository; one whose code has a form that is unknown here is left out."""
    crates = {}
    for folder in sorted(glob.glob(root + "/crates/*")):
        try:
            crates[os.path.basename(folder)] = Crate(os.path.basename(folder), texts_of(folder))
        except Unknown:
            pass
    return crates


def changed(right, wrong):
    """The functions of a crate whose text differs: (name, right, wrong)."""
    found = []
    for name in right.fns:
        for a, b in zip(right.fns[name], wrong.fns.get(name, [])):
            if a.text != b.text:
                found.append((name, a, b))
    return found
