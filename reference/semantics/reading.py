"""The readers of types and questions (docs/LANGUAGE.md, The grammar, Nesting and size).

What is read is a `Node`: the byte at which its first token begins, its form, what it holds, and its parts. A token is taken
only where the grammar goes on with it, so the first one that isn't taken is where the syntax fails.
"""
from collections import namedtuple

from .faults import MOST_NESTING, Fault

Node = namedtuple("Node", "at form value parts")
Binder = namedtuple("Binder", "name at")
Question = namedtuple("Question", "binders left right")

BASES = ("Int", "Bool", "Char")


class Reader:
    """The tokens that are left; `depth` is the nesting of the next one (`seq_nests`, `expr_nests`)."""

    def __init__(self, tokens):
        self.tokens, self.next, self.depth = tokens, 0, 0

    @property
    def at(self):
        return self.tokens[self.next].at

    @property
    def kind(self):
        """The kind of the next token; `one` of the grammar is "1"."""
        token = self.tokens[self.next]
        return "1" if token.kind == "number" and token.value == 1 else token.kind

    def take(self, *kinds):
        """The next token, which has to be of these kinds: `IsFirstError` where it isn't, `IsTooDeep` where it is nested too deep."""
        token = self.tokens[self.next]
        if kinds and self.kind not in kinds:
            raise Fault(token.at, "syntax")
        if self.depth > MOST_NESTING:
            raise Fault(token.at, "depth", "limit")
        self.next += 1
        return token

    def has(self, kind):
        """Whether the next token is of this kind, which is taken then."""
        return self.kind == kind and self.take() is not None

    def behind(self, word, item):
        """An item behind a word or sign."""
        self.take(word)
        return item(self)

    def several(self, item, separator=","):
        """`sep_by`: items with a separator between them."""
        items = [item(self)]
        while self.has(separator):
            items.append(item(self))
        return tuple(items)

    def many(self, kinds, item):
        """Items, as long as the next token begins one by its kind."""
        items = []
        while self.kind in kinds:
            items.append(item(self))
        return tuple(items)


def binder(r, kind="lower"):
    token = r.take(kind)
    return Binder(token.value, token.at)


def base(r):
    """`IsBase`"""
    token = r.take("(", *BASES)
    return "()" if token.kind == "(" and r.take(")") else token.kind


def type_(r):
    """`IsType`: a `seqtype`, and perhaps an arrow with more of them; the arrow and what follows is one deeper."""
    depth, at, result = r.depth, r.at, seqtype(r)
    if r.kind in ("->", "1"):
        r.depth += 1
        result = Node(at, "arrow", arrow(r), (result, type_(r)))
    r.depth = depth
    return result


def arrow(r):
    """`IsArrow`: "1" where the function may be used once, and else "*"."""
    use = "1" if r.has("1") else "*"
    r.take("->")
    return use


def seqtype(r):
    """`IsSeq`"""
    r.depth += 1
    at = r.at
    if r.has("rec"):
        result = Node(at, "rec", r.take("lower").value, (r.behind(".", seqtype),))
    else:
        result = tatom(r)
        if r.has(";"):
            result = Node(at, "seq", None, (result, seqtype(r)))
    r.depth -= 1
    return result


SIMPLE = {"Skip": "skip", "Close": "close", "Wait": "wait"}
MESSAGES = {"!": "send", "?": "receive"}
CHOICES = {"+": "select", "&": "offer"}
TYPE_STARTS = {*SIMPLE, *MESSAGES, *CHOICES, *BASES, "lower", "upper", "("}


def tatom(r):
    """`IsAtom`"""
    kind, _, at, _ = token = r.take(*TYPE_STARTS)
    if kind in SIMPLE:
        return Node(at, SIMPLE[kind], None, ())
    if kind in MESSAGES:
        return Node(at, MESSAGES[kind], base(r), ())
    if kind in CHOICES:
        r.take("{")
        labels, parts = zip(*r.several(alternative))
        r.take("}")
        return Node(at, CHOICES[kind], labels, parts)
    if kind == "(":
        return parenthesis(r, at, type_, Node(at, "plain", "()", ()))
    return Node(at, "plain", kind, ()) if kind in BASES else Node(at, "name", token.value, ())


def alternative(r):
    """`IsAlt`"""
    return r.take("upper").value, r.behind(":", seqtype)


def parenthesis(r, at, inner, empty):
    """What stands behind a parenthesis: nothing, one thing, of which the parentheses leave no trace, or a pair."""
    if r.has(")"):
        return empty
    result = inner(r)
    if r.has(","):
        result = Node(at, "pair", None, (result, inner(r)))
    r.take(")")
    return result


def kinded(r):
    """`IsBinder`: a variable with its kind, which is its use and then S or T."""
    variable = binder(r)
    r.take(":")
    use = "*" if r.take("*", "1").kind == "*" else "1"
    at, letter = r.at, r.take("upper").value
    if letter not in ("S", "T"):
        raise Fault(at, "syntax")
    return variable, use + letter


def forall(r):
    """`IsBinders`: the variables of a `forall`, where one stands here."""
    binders = r.several(kinded) if r.has("forall") else ()
    if binders:
        r.take(".")
    return binders


def read_question(tokens):
    """`IsQuestion`"""
    r = Reader(tokens)
    binders = forall(r)
    question = Question(binders, seqtype(r), r.behind("~", seqtype))
    r.take("end")
    return question
