"""Kinds (docs/SEMANTICS.md, Kinds). A kind is written "*S", "1S", "*T" or "1T"."""
from .faults import Fault

FIXED = {"skip": "*S", "back": "*S", "plain": "*T", "named": "*T"}


def is_below(kind, other):
    """`subkind`: *S is below 1S and *T, both are below 1T, and each kind is below itself."""
    return (kind[0] == "*" or other[0] == "1") and (kind[1] == "S" or other[1] == "T")


known = {}


def kind_of(t, variables, at=0):
    """`walk`: the kind of a type over the kinds of a signature's variables (`HasKind`), or its first fault (`IsFirstFault`)."""
    if (t, variables) not in known:
        if t.form in ("select", "offer"):
            twice = [label for label, behind in zip(t.value, t.value[1:]) if label == behind]
            if twice:
                raise Fault(at, "double label " + twice[0])
        kinds = [kind_of(part, variables, at) for part in t.parts]
        if t.form in ("select", "offer", "seq", "rec"):
            for kind in kinds:
                need_below(kind, "1S", at)
        if t.form == "rec" and reaches(t.parts[0], 0):
            raise Fault(at, "not contractive")
        known[t, variables] = kind_with(t, kinds, variables)
    return known[t, variables]


def kind_with(t, kinds, variables):
    """The kind of a type whose parts have these kinds: of a sequence or pair once where either part is used once (`join`)."""
    if t.form in ("seq", "pair"):
        return max(kind[0] for kind in kinds) + ("S" if t.form == "seq" else "T")
    if t.form in ("var", "rec"):
        return variables[t.value] if t.form == "var" else kinds[0]
    return t.value + "T" if t.form == "arrow" else FIXED.get(t.form, "1S")


def need_below(kind, wanted, at):
    """`needs_session`, and what is asked of a type argument."""
    if not is_below(kind, wanted):
        raise Fault(at, "kind %s wanted %s" % (kind, wanted))


def guards(t):
    """`guards`: what stands behind the type comes after a move; the variable of a `rec` counts as one, that of a signature doesn't."""
    if t.form in ("seq", "rec"):
        return any(map(guards, t.parts))
    return t.form not in ("skip", "var")


def reaches(t, k):
    """`reaches`: the type comes to the k-th enclosing `rec`'s variable before any move."""
    if t.form == "seq":
        first, rest = t.parts
        return reaches(first, k) or not guards(first) and reaches(rest, k)
    return reaches(t.parts[0], k + 1) if t.form == "rec" else t.form == "back" and t.value == k
