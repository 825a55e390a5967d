"""Types as the program writes them: read, written shorter by the aliases of a module, and compared.

A Type has a form and parts. The forms are "name" (with its text), "rec" (whose variable in the body is "back", with how
many `rec`s stand between), "choice" (with `+` or `&` and its labels), "pair" and the signs of the others: `;`, `->` and
`1->`. So types that differ in the names of `rec`s alone are equal.
"""
import collections
import functools
import re

from . import program, source

SMALLEST = 3  # parts of a type that the name of an alias may stand for; of a smaller one the text says more
LONGEST = 60  # characters of a type that is shown whole
MOST_ALIASES = 30

Type = collections.namedtuple("Type", "form value parts")
REST = Type("name", "..", ())


class Reader:
    """Reads the type that a text is. What isn't one raises ValueError."""

    def __init__(self, text):
        self.tokens = [token.text for token in source.tokens(text)]
        self.at = 0

    def next(self):
        return self.tokens[self.at] if self.at < len(self.tokens) else ""

    def take(self, *wanted):
        """Takes the next token, which has to be one of those wanted, if any are named."""
        token = self.next()
        if not token or wanted and token not in wanted:
            raise ValueError(f"no type at the token {self.at}")
        self.at += 1
        return token

    def whole(self):
        found = self.type(())
        if self.next():
            raise ValueError(f"more than a type at the token {self.at}")
        return found

    def type(self, within):
        found = self.sequence(within)
        if self.next() not in ("->", "1"):
            return found
        arrow = "->" if self.take() == "->" else "1" + self.take("->")
        return Type(arrow, None, (found, self.type(within)))

    def sequence(self, within):
        if self.next() == "rec":
            self.take()
            name = self.take()
            self.take(".")
            return Type("rec", None, (self.sequence((name, *within)),))
        found = self.atom(within)
        if self.next() != ";":
            return found
        self.take()
        return Type(";", None, (found, self.sequence(within)))

    def atom(self, within):
        token = self.take()
        if token in ("!", "?"):
            base = self.take("Int", "Bool", "Char", "(")
            return Type("name", token + (base if base != "(" else base + self.take(")")), ())
        if token in ("+", "&"):
            return self.choice(token, within)
        if token == "(":
            return self.enclosed(within)
        if token in within:
            return Type("back", within.index(token), ())
        if not re.match(r"\w", token):
            raise ValueError(f"no type at the token {self.at - 1}")
        return Type("name", token, ())

    def enclosed(self, within):
        if self.next() == ")":
            return Type("name", "(" + self.take(), ())
        found = self.type(within)
        if self.take(")", ",") == ",":
            found = Type("pair", None, (found, self.type(within)))
            self.take(")")
        return found

    def choice(self, sign, within):
        labels, parts, token = [], [], self.take("{")
        while token != "}":
            labels.append(self.take())
            self.take(":")
            parts.append(self.sequence(within))
            token = self.take("}", ",")
        return Type("choice", (sign, tuple(labels)), tuple(parts))


def read(text):
    """Returns the Type of this text, or None."""
    try:
        return Reader(text).whole()
    except (ValueError, RecursionError):
        return None


def written(type, depth=0):
    """Returns the text of a type, as the program writes it."""

    def part(it, *enclosed, depth=depth):
        text = written(it, depth)
        return f"({text})" if it.form in enclosed else text

    if type.form == "name":
        return type.value
    if type.form == "back":
        return f"x{depth - type.value}"
    if type.form == "rec":
        return f"rec x{depth + 1}. {part(type.parts[0], '->', '1->', depth=depth + 1)}"
    if type.form == "choice":
        sign, labels = type.value
        return sign + "{" + ", ".join(
            f"{label}: {part(it)}" if label != ".." else label for label, it in zip(labels, type.parts)
        ) + "}"
    if type.form == ";":
        return f"{part(type.parts[0], ';', 'rec', '->', '1->')};{part(type.parts[1], '->', '1->')}"
    if type.form == "pair":
        return f"({part(type.parts[0])}, {part(type.parts[1])})"
    return f"{part(type.parts[0], '->', '1->')} {type.form} {part(type.parts[1])}"


@functools.lru_cache(maxsize=None)
def size(type):
    return 1 + sum(map(size, type.parts))


def folded(type, names):
    """Returns a type with the name of an alias in place of what it stands for. `names` has the aliases' names by their
    types."""
    if type in names:
        return Type("name", names[type], ())
    return type._replace(parts=tuple(folded(it, names) for it in type.parts))


def aliases(text, path=None):
    """Returns the names of a module's aliases by their types, as the program resolves them; those with few parts are
    left out."""
    parts = [part for part in source.declarations(text) if part.kind in ("data", "type")]
    found = [part.name for part in parts if part.kind == "type"][:MOST_ALIASES]
    if not found:
        return {}
    pairs = "()"
    for name in reversed(found):
        pairs = f"({name}, {pairs})"
    # (a function isn't printable, and the answer has its type)
    module = "".join(f"{part.text.rstrip()}\n" for part in parts) + f"main : {pairs} -> ()\nmain x = ()\n"
    answer = re.match(
        r"refused \d+:\d+ not printable (.*)\n", program.call(["check"], module, path=path, seconds=2).out
    )
    type, names = read(answer[1]) if answer else None, {}
    pairs = type and type.parts[0]
    for name in found if pairs else []:
        type, pairs = pairs.parts
        if size(type) >= SMALLEST:
            names.setdefault(type, name)
    return names


def head(type):
    """Returns the part of a protocol that moves first, or None where nothing is left to do, or the type is none."""
    if type is None or type.form in ("back", "->", "1->", "pair") or type.value == "Skip":
        return None
    if type.form == ";":
        return head(type.parts[0]) or head(type.parts[1])
    return head(type.parts[0]) if type.form == "rec" else type


def is_protocol(type):
    """Returns whether a type may be one of an end of a channel, as far as its form says."""
    return type is not None and type.form not in ("->", "1->", "pair") and type.value not in (
        "Int", "Bool", "Char", "()"
    )


def moves(type):
    """Returns what may be done next on an end of this protocol."""
    first = head(type)
    if first is None:
        return "nothing: it is done"
    if first.form == "choice":
        sign, labels = first.value
        names = ", ".join(f"`{label}`" for label in labels)
        return f"`select` of one of {names}" if sign == "+" else f"`match` with an arm for each of {names}"
    if first.value[0] == "!":
        return f"`send` of a value of type {first.value[1:]}"
    known = {"?": "`receive`", "C": "`close`", "W": "`wait`"}
    return known[first.value[0]] if first.value in ("Close", "Wait") or first.value[0] == "?" else f"whatever {first.value} stands for"


def difference(one, two):
    """Returns two types with `..` in place of parts that both have at the same place."""
    if one == two:
        return REST, REST
    if one.form != two.form or one.value != two.value or not one.parts:
        return one, two
    pairs = [difference(*it) for it in zip(one.parts, two.parts)]
    return without_equal(one, [it[0] for it in pairs]), without_equal(two, [it[1] for it in pairs])


def without_equal(type, parts):
    """Returns a type with these parts, of which those that are equal in both are one `..` where the type is a
    choice."""
    if type.form != "choice" or REST not in parts:
        return type._replace(parts=tuple(parts))
    sign, labels = type.value
    kept = [(label, part) for label, part in zip(labels, parts) if part != REST] + [("..", REST)]
    return Type("choice", (sign, tuple(it[0] for it in kept)), tuple(it[1] for it in kept))


def shortened(text, names):
    """Returns the text of a type with the aliases' names in it, or the text itself where that isn't known."""
    type = read(text)
    return written(folded(type, names)) if type else text


def apart(one, two, names):
    """Returns the texts of two types, with aliases' names in them, and where they are long with `..` for what both
    have."""
    types = read(one), read(two)
    if None in types:
        return one, two
    types = [folded(it, names) for it in types]
    if max(len(written(it)) for it in types) > LONGEST:
        types = difference(*types)
    return tuple(written(it) for it in types)
