"""Texts of types, labels, values and modules (docs/LANGUAGE.md, Show, Refusals, Run).

A form stands in parentheses where the grammar takes another one at its place. So each place has a level, and each form.
"""
from .steps import CHOICES, ENDS, MESSAGES

TYPE, SEQUENCE, ATOM = range(3)
LEVELS = {"arrow": TYPE, "seq": SEQUENCE, "rec": SEQUENCE}
ARROWS = {"*": " -> ", "1": " 1-> "}
ESCAPED = {"\n": "\\n", "\t": "\\t", "\\": "\\\\", "'": "\\'"}


def type_text(t, families=(), level=TYPE, recs=0):
    """`type_text`: of a type under so many `rec`s, where the grammar takes this level; or of one as it is written, by its own names."""
    def inside(part, level, more=0):
        return type_text(part, families, level, recs + more)
    text = NAMES[t.form](t.value, families, recs) if t.form in NAMES else form_text(t, t.value or "x%d" % (recs + 1), inside)
    return "(" + text + ")" if LEVELS.get(t.form, ATOM) < level else text


NAMES = {
    "back": lambda k, families, recs: "x%d" % (recs - k), "var": lambda k, families, recs: "a%d" % (k + 1),
    "named": lambda k, families, recs: families[k].name, "name": lambda name, families, recs: name,
}


def form_text(t, binder, inside):
    """`inside` writes a part where the grammar takes this level."""
    if t.form == "seq":
        return inside(t.parts[0], ATOM) + ";" + inside(t.parts[1], SEQUENCE)
    if t.form == "rec":
        return "rec " + binder + ". " + inside(t.parts[0], SEQUENCE, 1)
    if t.form == "arrow":
        return inside(t.parts[0], SEQUENCE) + ARROWS[t.value] + inside(t.parts[1], TYPE)
    if t.form == "pair":
        return "(" + ", ".join(inside(part, TYPE) for part in t.parts) + ")"
    if t.form in CHOICES:
        branches = (label + ": " + inside(part, SEQUENCE) for label, part in zip(t.value, t.parts))
        return CHOICES[t.form] + "{" + ", ".join(branches) + "}"
    if t.form in MESSAGES:
        return MESSAGES[t.form] + t.value
    return t.value if t.form == "plain" else ENDS.get(t.form, "Skip")


def atom_text(t):
    return type_text(t, level=ATOM)


def trace_text(trace, side):
    """`word_text` and the side that performs it."""
    return " ".join(["a%d" % (value + 1) if form == "var" else form + value for form, value in trace] + [side])


def character_text(c):
    return "'" + ESCAPED.get(c, c) + "'"


# Terms: the levels of `expr`, of the five chains, of `unary`, `app` and `atom`.
EXPR, CHAIN, UNARY, APP, TERM_ATOM = 0, 1, 6, 7, 8
SIGNS = {sign: CHAIN + k for k, signs in enumerate(("||", "&&", "== /= < <= > >=", "+ -", "*")) for sign in signs.split()}
COMPARES = SIGNS["=="]
OPEN = {"let", "split", "if", "lambda", "case", "match", "then"}
APPLIED = {"send", "receive", "close", "wait", "fork", "select", "new", "apply"}


def term_level(e):
    if e.form == "make":
        return APP if e.parts else TERM_ATOM
    if e.form == "operate":
        return SIGNS[e.value]
    return EXPR if e.form in OPEN else UNARY if e.form == "not" else APP if e.form in APPLIED else TERM_ATOM


def in_order(whole, pieces_of):
    """The text of a whole, from a stack of what is still to be written: texts, and parts, whose pieces are in order."""
    written, stack = [], [whole]
    while stack:
        item = stack.pop()
        if isinstance(item, str):
            written.append(item)
        else:
            stack += reversed(pieces_of(*item))
    return "".join(written)


def term_text(term):
    return in_order((term, EXPR), lambda e, level: term_pieces(e) if term_level(e) >= level else ("(", *term_pieces(e), ")"))


def term_pieces(e):
    """What stands in a term one after the other: texts, and terms with levels."""
    if e.form in TERM_PIECES:
        return TERM_PIECES[e.form](e, *e.parts)
    if e.form == "operate":
        own = SIGNS[e.value]
        return (e.parts[0], own + (own == COMPARES)), " " + e.value + " ", (e.parts[1], own + 1)
    return applied(e.form, e.parts)


def applied(front, parts):
    return (front, *(piece for part in parts for piece in (" ", (part, TERM_ATOM))))


def let_pieces(e, value, body):
    bound = ", ".join(binder.name for binder in e.value)
    return "let " + (bound if e.form == "let" else "(" + bound + ")") + " = ", (value, EXPR), " in ", (body, EXPR)


def function_pieces(e, body):
    use, written, bound = e.value
    return "\\" + bound.name + ":" + type_text(written, level=SEQUENCE) + ARROWS[use], (body, EXPR)


def choice_pieces(e, value):
    pieces = [e.form + " ", (value, EXPR), " of {" if e.form == "case" else " with {"]
    for k, arm in enumerate(e.value):
        pieces += [", " * (k > 0) + " ".join([arm.label.name, *(b.name for b in arm.binders)]) + " -> ", (arm.body, EXPR)]
    return (*pieces, "}")


def apply_pieces(e, f, argument):
    if f.form == "make" and not f.parts:
        return "(" + f.value.name + ") ", (argument, TERM_ATOM)
    return (f, APP if f.form == "apply" else TERM_ATOM), " ", (argument, TERM_ATOM)


TERM_PIECES = {
    "name": lambda e: (e.value[0] + "".join(" @" + atom_text(t) for t in e.value[1]),),
    "int": lambda e: (str(e.value),), "bool": lambda e: (str(e.value),), "unit": lambda e: ("()",),
    "char": lambda e: (character_text(e.value),),
    "pair": lambda e, a, b: ("(", (a, EXPR), ", ", (b, EXPR), ")"),
    "make": lambda e, *parts: applied(e.value.name, parts),
    "then": lambda e, a, b: ((a, CHAIN), "; ", (b, EXPR)),
    "not": lambda e, a: ("not ", (a, UNARY)),
    "new": lambda e: ("new " + atom_text(e.value),),
    "select": lambda e, a: ("select " + e.value + " ", (a, TERM_ATOM)),
    "if": lambda e, a, b, c: ("if ", (a, EXPR), " then ", (b, EXPR), " else ", (c, EXPR)),
    "let": let_pieces, "split": let_pieces, "lambda": function_pieces, "case": choice_pieces, "match": choice_pieces,
    "apply": apply_pieces,
}


def kinds_text(binders):
    """The `forall` in front of a type."""
    return "forall " + ", ".join(name + ":" + kind for name, kind in binders) + ". " if binders else ""


def declaration_text(d):
    """`module_text`, one line of it."""
    kind = type(d).__name__
    if kind == "Data":
        makers = (" ".join([m.name.name, *(atom_text(field) for field in m.fields)]) for m in d.makers)
        return "data " + d.name.name + " = " + " | ".join(makers)
    if kind == "Alias":
        return "type " + d.name.name + " = " + type_text(d.type)
    if kind == "Signature":
        return d.name.name + " : " + kinds_text([(b.name, k) for b, k in d.binders]) + type_text(d.type)
    return " ".join([d.name.name, *(b.name for b in d.parameters)]) + " = " + term_text(d.body)
