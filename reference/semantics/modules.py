"""The readers of terms and modules (docs/LANGUAGE.md, The grammar).

A term is a `Node` with the forms of `TermTree`; what its form holds beside terms stands in its value.
"""
from collections import namedtuple

from .faults import Fault
from .reading import TYPE_STARTS, Binder, Node, Reader, arrow, binder, forall, parenthesis, seqtype, tatom, type_

Arm = namedtuple("Arm", "label binders body")
Data = namedtuple("Data", "name makers")
Maker = namedtuple("Maker", "name fields")
Alias = namedtuple("Alias", "name type")
Signature = namedtuple("Signature", "name binders type")
Equation = namedtuple("Equation", "name parameters body")

COMPARISONS = ("==", "/=", "<", "<=", ">", ">=")
CHAINS = (("||",), ("&&",), COMPARISONS, ("+", "-"), ("*",))
LITERALS = {"number": "int", "character": "char"}
TRUTH = {"True": True, "False": False}
ATOM_STARTS = {"lower", "upper", "(", "1", *LITERALS, *TRUTH}


def expr(r):
    """`IsExpr`"""
    r.depth += 1
    result = EXPRESSIONS.get(r.kind, sequence)(r)
    r.depth -= 1
    return result


def sequence(r):
    at, first = r.at, chain(r, 0)
    return Node(at, "then", None, (first, expr(r))) if r.has(";") else first


def let(r):
    at, form, bound = r.take().at, "let", ()
    if r.has("("):
        form, bound = "split", (binder(r), r.behind(",", binder))
        r.take(")")
    return Node(at, form, bound or (binder(r),), (r.behind("=", expr), r.behind("in", expr)))


def if_(r):
    return Node(r.at, "if", None, (r.behind("if", expr), r.behind("then", expr), r.behind("else", expr)))


def function(r):
    at, bound, written = r.take().at, binder(r), r.behind(":", seqtype)
    return Node(at, "lambda", (arrow(r), written, bound), (expr(r),))


def case(r):
    """`IsExpr`, of a `case` and of a `match`"""
    at, form = r.at, r.kind
    value = r.behind(form, expr)
    r.take("of" if form == "case" else "with")
    r.take("{")
    arms = r.several(case_arm if form == "case" else match_arm)
    r.take("}")
    return Node(at, form, arms, (value,))


def case_arm(r):
    """`AreCases`"""
    return Arm(binder(r, "upper"), r.many(("lower",), binder), r.behind("->", expr))


def match_arm(r):
    """`AreMatches`"""
    return Arm(binder(r, "upper"), (binder(r),), r.behind("->", expr))


EXPRESSIONS = {"let": let, "if": if_, "\\": function, "case": case, "match": case}


def chain(r, level):
    """`IsOr`, `IsAnd`, `IsCmp`, `IsSum`, `IsProd`: in all but a comparison an operator and what follows it is one deeper."""
    if level == len(CHAINS):
        return unary(r)
    at, depth, left = r.at, r.depth, chain(r, level + 1)
    while r.kind in CHAINS[level]:
        compares = CHAINS[level] is COMPARISONS
        r.depth += not compares
        left = Node(at, "operate", r.take().kind, (left, chain(r, level + 1)))
        if compares:
            break
    r.depth = depth
    return left


def unary(r):
    """`IsUnary`: what stands behind a `not` is one deeper."""
    at = r.at
    if not r.has("not"):
        return application(r)
    r.depth += 1
    part = unary(r)
    r.depth -= 1
    return Node(at, "not", None, (part,))


ATOMS_BEHIND = {"send": 2, "receive": 1, "close": 1, "wait": 1, "fork": 1, "select": 1, "new": 0}


def application(r):
    """`IsApp`: the k-th operand is k deeper than the first one, which is the word or atom at the front."""
    at, depth, form, value = r.at, r.depth, r.kind, None
    if form in ATOMS_BEHIND:
        r.take()
        if form in ("select", "new"):
            r.depth += 1
            value = r.take("upper").value if form == "select" else tatom(r)
        result = Node(at, form, value, tuple(operand(r) for _ in range(ATOMS_BEHIND[form])))
    elif form == "upper":
        result = Node(at, "make", binder(r, "upper"), r.many(ATOM_STARTS, operand))
    else:
        result = atom(r)
        for argument in r.many(ATOM_STARTS, operand):
            result = Node(at, "apply", None, (result, argument))
    r.depth = depth
    return result


def operand(r):
    """One of `AreAtoms`"""
    r.depth += 1
    return atom(r)


def atom(r):
    """`IsAtom`"""
    kind, value, at, _ = r.take(*ATOM_STARTS)
    if kind == "lower":
        types = []
        while r.has("@"):
            types.append(tatom(r))
        return Node(at, "name", (value, tuple(types)), ())
    if kind == "upper":
        return Node(at, "make", Binder(value, at), ())
    if kind == "(":
        return parenthesis(r, at, expr, Node(at, "unit", None, ()))
    return Node(at, "bool", TRUTH[kind], ()) if kind in TRUTH else Node(at, LITERALS[kind], value, ())


def declaration(r):
    """`IsDecl`"""
    if r.has("data"):
        return Data(binder(r, "upper"), r.behind("=", makers))
    if r.has("type"):
        return Alias(binder(r, "upper"), r.behind("=", type_))
    name = binder(r)
    if r.has(":"):
        return Signature(name, forall(r), type_(r))
    return Equation(name, r.many(("lower",), binder), r.behind("=", expr))


def makers(r):
    """`AreMakers`"""
    return r.several(lambda r: Maker(binder(r, "upper"), r.many(TYPE_STARTS, tatom)), "|")


def read_module(tokens):
    """`IsModule`: just the first token of each declaration begins a line; the next line's token is where one ends."""
    starts = [k for k, token in enumerate(tokens) if token.begins_line and token.kind != "end"]
    if tokens[0].kind != "end" and 0 not in starts[:1]:
        raise Fault(tokens[0].at, "syntax")
    declarations = []
    for start, stop in zip(starts, [*starts[1:], len(tokens) - 1]):
        r = Reader([*tokens[start:stop], tokens[stop]._replace(kind="end")])
        declarations.append(declaration(r))
        r.take("end")
    return declarations
