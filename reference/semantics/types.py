"""Types (docs/SEMANTICS.md, Types): trees with numbers in place of names. Each tree is made once, so equal ones are one object.

| Form | Value | Parts |
|---|---|---|
| skip, close, wait | | |
| send, receive, plain | the base type, as it is written | |
| select, offer | the labels in byte order | the types of the branches |
| seq, pair | | both |
| rec | | the body |
| back, var, named | the number of the `rec` outward, of the variable, of the data type | |
| arrow | "*" or "1" | both |
"""
from .faults import MOST_NODES, too_large

MOST_COUNTED = 2 ** 64 - 1


class Type:
    """`Tree`, with `nodes`, how many nodes it has; `open_depth`, how many binders it asks for; `done`, whether it is `terminated`."""
    __slots__ = ("form", "value", "parts", "nodes", "open", "done")

    def __init__(self, form, value, parts):
        self.form, self.value, self.parts = form, value, parts
        branches = len(parts) if form in ("select", "offer") else 0
        self.nodes = min(MOST_COUNTED, 1 + branches + sum(part.nodes for part in parts))
        inside = max((part.open for part in parts), default=0)
        self.open = value + 1 if form == "back" else max(0, inside - 1) if form == "rec" else inside
        self.done = form == "skip" or form in ("seq", "rec") and all(part.done for part in parts)


made = {}


def make(form, value=None, *parts):
    """The type of this form: the one that was made before, if there is one."""
    key = (form, value, *map(id, parts))
    if key not in made:
        made[key] = Type(form, value, parts)
    return made[key]


SKIP = make("skip")
UNIT, INT, BOOL, CHAR = (make("plain", name) for name in ("()", "Int", "Bool", "Char"))
kept = dict(made)


def forget():
    """Lets go of all types but these, where a new answer begins."""
    made.clear()
    made.update(kept)


def sized(at, t):
    """`IsInSize`: the type, where it has no more nodes than a type may have."""
    if t.nodes > MOST_NODES:
        raise too_large(at)
    return t


def within(tree):
    """A tree and all its parts."""
    stack = [tree]
    while stack:
        part = stack.pop()
        yield part
        stack += part.parts


def rebuilt(t, leaf, depth=0, memo=None):
    """The type with `leaf(u, depth)` in place of each part u for which this is something, under so many binders of the type."""
    memo = {} if memo is None else memo
    if (t, depth) not in memo:
        new = leaf(t, depth)
        if new is None:
            inside = depth + (t.form == "rec")
            new = make(t.form, t.value, *(rebuilt(part, leaf, inside, memo) for part in t.parts)) if t.parts else t
        memo[t, depth] = new
    return memo[t, depth]


def unfolding(t):
    """`unfolding_of`: the body of a closed `rec` with the whole type in place of its variable."""
    def leaf(part, depth):
        if part.open <= depth:
            return part
        return t if part.form == "back" else None
    return rebuilt(t.parts[0], leaf)


def instance(t, arguments):
    """`instantiated`: the type with the types that are given in place of a signature's variables."""
    return rebuilt(t, lambda part, depth: arguments[part.value] if part.form == "var" else None)
