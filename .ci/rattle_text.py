"""What the scripts of the gate read in the text of crates.txt and of Rattle code: lists of crates, `use` items, clauses."""
import re

USE = re.compile(r"^(pub )?use ([^;]*);", re.M)
CLAUSE = re.compile(r"^ +(requires|ensures)(?: (\w+))? \{", re.M)
FUNCTION = re.compile(r"^ *(pub )?(?:pub\(crate\) )?(?:extern \"C\" )?fn (\w+)(?:<[^>]*>)?\(([^{]*?)\)(?: -> [^{]*?)?(?: \{$|(?:\n *where\b[^{]*?)?\n((?: +(?:requires|ensures|ghost)\b.*?)?)^ *\{)", re.M | re.S)
IMPL = re.compile(r"^impl(?:<[^>]*>)? (?:[^{\n]* for )?(\w+)", re.M)
CRATE = re.compile(r"^(\w+)(?: staticlib)?: *(.*)$")


def text(path):
    with open(path, encoding="utf-8") as f:
        return f.read()


def crates():
    """crate -> what it uses, in the order of crates.txt."""
    lines = [CRATE.match(line.split("#")[0].rstrip()) for line in text("crates.txt").split("\n")]
    return {line[1]: line[2].split() for line in lines if line}


def below(crate, uses, found=None):
    """The repository's crates below a crate, each after those that it uses."""
    found = [] if found is None else found
    for name in uses[crate]:
        if name in uses and name not in found:
            below(name, uses, found)
            found.append(name)
    return found


def listed(words):
    """The paths of a `use` tree, each as a list of names."""
    words = words.strip()
    head, opens, inside = words.partition("{")
    if not opens:
        return [re.sub(r"\s+as\s.*", "", words).split("::")] if words else []
    depth, parts = 0, [""]
    for c in inside.rpartition("}")[0]:
        depth += (c == "{") - (c == "}")
        if c == "," and depth == 0:
            parts.append("")
        else:
            parts[-1] += c
    return [head.strip().removesuffix("::").split("::") + path for part in parts for path in listed(part)]


def used(code):
    """(is it passed on, path) of each item that a file's `use` lines bring in, in their order."""
    return [(bool(found[1]), path) for found in USE.finditer(code) for path in listed(found[2])]


def clauses(contract):
    """(kind, name, what it says) of each clause; the name of an only one is empty."""
    found = []
    for head in CLAUSE.finditer(contract):
        depth, at = 1, head.end()
        while depth and at < len(contract):
            depth += (contract[at] == "{") - (contract[at] == "}")
            at += 1
        found.append((head[1], head[2] or "", " ".join(contract[head.end():at - 1].split())))
    return found


def functions(code):
    """(is it public, the type whose method it is or nothing, name, what stands between its parentheses, its contract) of each function of a file."""
    owners = [(found.start(), found[1]) for found in IMPL.finditer(code)]
    found = []
    for one in FUNCTION.finditer(code):
        inside = one[0].lstrip("\n").startswith(" ")
        owner = [name for at, name in owners if at < one.start()][-1:] if inside else []
        found.append((bool(one[1]), "".join(owner), one[2], one[3], one[4] or ""))
    return found
