"""Random questions: of finite, recursive, quantified and closed types, equivalent ones, ones that can end, and refused ones."""
from trials import texts
from trials.protocols import (Style, equivalent, other, random_grammar, random_message, random_tree, sequence, size)

KINDS = ["*S", "1S", "*T", "1T"]
NAMES = ["a", "b", "c", "x", "ø"]


def question(random, left, right, variables=()):
    """The text of a question; variables are pairs of name and kind."""
    tokens = []
    for name, kind in variables:
        tokens += ["," if tokens else "forall", name, ":", *kind]
    if tokens:
        tokens.append(".")
    chance = random if random.random() < 0.3 else None
    tokens += [*texts.tokens_of_tree(left, chance), "~", *texts.tokens_of_tree(right, chance)]
    return texts.laid_out(random, tokens).encode()


def budget(random):
    """The words of a call of `equiv`, mostly without a budget."""
    if random.random() < 0.7:
        return ["equiv"]
    number = str(random.choice([1, 2, 3, 4, 6, 9, 16, 30, 100, 300, 2000]))
    return ["equiv", *random.choice([["--budget", number], ["--budget=" + number]])]


def pair(random, style, many):
    """Two trees: an equivalent one, one with a small difference, both, or two of their own."""
    left = random_tree(style, many)
    chance = random.random()
    if chance < 0.15:
        return left, random_tree(style, many)
    right = equivalent(random, left, random.randint(0, 6))
    if chance < 0.6:
        right = other(random, right)
    return (left, right) if random.random() < 0.5 else (right, left)


def finite(random):
    return budget(random), question(random, *pair(random, Style(random), random.randint(1, 14)))


def recursive(random):
    return budget(random), question(random, *pair(random, Style(random, recursive=True), random.randint(2, 16)))


def variables(random, kinds):
    names = random.sample(NAMES, random.randint(1, 3))
    return [(name, random.choice(kinds)) for name in names]


def quantified(random):
    bound = variables(random, ["*S", "1S", "1S"] if random.random() < 0.8 else KINDS)
    style = Style(random, recursive=random.random() < 0.6, ends=random.random() < 0.3, variables=tuple(name for name, _ in bound))
    return budget(random), question(random, *pair(random, style, random.randint(1, 12)), bound)


def closed(random):
    style = Style(random, recursive=random.random() < 0.6, ends=True)
    return budget(random), question(random, *pair(random, style, random.randint(1, 14)))


def equivalent_pair(random):
    """Two trees that perform the same, by a chain of changes."""
    bound = variables(random, ["*S", "1S"]) if random.random() < 0.2 else []
    style = Style(random, recursive=random.random() < 0.9, ends=random.random() < 0.3, variables=tuple(name for name, _ in bound))
    left = random_grammar(style, random.randint(1, 5)) if random.random() < 0.4 else random_tree(style, random.randint(2, 16))
    right = equivalent(random, left, random.randint(1, 12))
    left = equivalent(random, left, random.randint(0, 3))
    return left, right, bound


def equal(random):
    return budget(random), question(random, *equivalent_pair(random))


def normed(random):
    """Types in which each part can end, from random grammars, with a small difference or none."""
    style = Style(random)
    left = random_grammar(style, random.randint(1, 6))
    if random.random() < 0.3:
        left = sequence([left, *(random_message(style) for _ in range(random.randint(0, 2))), random_grammar(style, random.randint(1, 2))])
    right = equivalent(random, left, random.randint(0, 4), most=max(120, size(left)))
    for _ in range(random.choice([0, 1, 1, 2])):
        right = other(random, right)
    if random.random() < 0.1:
        right = random_grammar(style, random.randint(1, 4))
    return budget(random), question(random, left, right)


FAULTS = ["x", "Int", "(Int -> Int)", "(Int, Skip)", "rec x. x", "rec x. Skip;x", "rec x. (rec y. y);x", "+{A: Skip, A: !Int}",
          "&{B: Skip, A: Skip, B: Skip}", "D", "!Int -> Skip", "()", "rec a. !Int;b", "+{}", "!Skip", "1", "rec X. X", "Int 1-> Int",
          "(Skip)", "(Close, Wait)", "rec rec. Skip", "a", "b;!Int", "rec a. a", "rec x. a;x"]


def refused(random):
    """Questions with faults: names, kinds, choices, syntax, tokens, bytes."""
    bound = variables(random, KINDS) if random.random() < 0.5 else []
    bound += [random.choice(bound)] if bound and random.random() < 0.2 else []
    style = Style(random, recursive=True, ends=True, variables=tuple(name for name, _ in bound))
    text = question(random, *pair(random, style, random.randint(1, 8)), bound).decode()
    for _ in range(random.randint(0, 2)):
        pieces = texts.pieces_of(text)
        places = [place for place, piece in enumerate(pieces) if piece in ("Skip", "Close", "x", "y", "a", "Wait")] or [0]
        pieces[random.choice(places)] = random.choice(FAULTS)
        text = "".join(pieces)
    for _ in range(random.choice([0, 0, 1, 1, 2])):
        text = texts.disturbed(random, text)
    data = text.encode()
    return budget(random), texts.damaged(random, data) if random.random() < 0.15 else data
