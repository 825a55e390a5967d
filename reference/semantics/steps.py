"""How types move (docs/SEMANTICS.md, Steps and Duals). A label is a pair: its form, and the base, name or number that it has."""
from .types import SKIP, make, rebuilt, unfolding

MESSAGES = {"send": "!", "receive": "?"}
CHOICES = {"select": "+", "offer": "&"}
ENDS = {"close": "Close", "wait": "Wait"}
LABEL_FORMS = ("!", "?", "+", "&", "Close", "Wait", "var")
PAYLOADS = ("Int", "Bool", "Char", "()")
DUALS = {"send": "receive", "select": "offer", "close": "wait"}
DUALS.update({there: here for here, there in list(DUALS.items())})


def rank(label):
    """`label_cmp`: labels stand in the order of what this gives."""
    form, value = label
    return LABEL_FORMS.index(form), PAYLOADS.index(value) if form in "!?" else value


def own_labels(t):
    """The label of a message, of `Close` and `Wait` and of a variable, and those of a choice (`choice_labels`)."""
    if t.form in CHOICES:
        return [(CHOICES[t.form], label) for label in t.value]
    if t.form in MESSAGES:
        return [(MESSAGES[t.form], t.value)]
    return [(ENDS[t.form], "")] if t.form in ENDS else [("var", t.value)] if t.form == "var" else []


def labels(t):
    """`labels`: the labels by which a type moves, those of a choice in the order of its branches."""
    if t.form == "seq":
        return labels(t.parts[1] if t.parts[0].done else t.parts[0])
    if t.form == "rec":
        return labels(t.parts[0])
    return own_labels(t)


def step(t, label):
    """`step`: the type after a label, or None. A `rec` moves as its unfolding."""
    if t.form == "seq":
        first, rest = t.parts
        if first.done:
            return step(rest, label)
        left = step(first, label)
        return left and followed(label, left, rest)
    if t.form == "rec":
        return step(unfolding(t), label)
    if label not in own_labels(t):
        return None
    return t.parts[t.value.index(label[1])] if t.form in CHOICES else SKIP


def followed(label, left, rest):
    """`followed`: what is left after a label, with `rest` behind it: behind an end nothing is."""
    return SKIP if label[0] in ("Close", "Wait") else make("seq", None, left, rest)


def dual(t):
    """`dual`"""
    return rebuilt(t, lambda part, depth: None if part.form not in DUALS else
                   make(DUALS[part.form], part.value, *map(dual, part.parts)))
