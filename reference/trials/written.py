"""Random modules that are well typed by construction: what their types and terms are made of, and the text of each.

A type is ("base", b), ("data", name), ("pair", T, U), ("->", T, U), ("1->", T, U) or ("end", moves): a protocol as a tuple of moves,
each a tree of protocols.py but for `Skip` and `;`; the branches of a choice and the body of a `rec` are such tuples, too.
A term is a pair of its level, which says where it needs parentheses, and its text.
"""
from trials import protocols, texts

INT, BOOL, CHAR, UNIT = [("base", base) for base in ("Int", "Bool", "Char", "()")]
OPEN, OPERATOR, APPLIED, ATOM = range(4)
DONE = ("end", ())


def is_linear(t):
    if t[0] == "pair":
        return is_linear(t[1]) or is_linear(t[2])
    return t[0] == "1->" or t[0] == "end" and t[1] != ()


def tree_of(moves):
    """The tree of protocols.py for a tuple of moves."""
    return protocols.sequence([tree_of_move(move) for move in moves])


def tree_of_move(move):
    if move[0] in ("+", "&"):
        return move[0], tuple((label, tree_of(rest)) for label, rest in move[1])
    return ("rec", move[1], tree_of(move[2])) if move[0] == "rec" else move


def put(moves, name, what):
    """The moves with `what`, a tuple of moves, in place of the name."""
    new = []
    for move in moves:
        if move == ("name", name):
            new += what
        elif move[0] in ("+", "&"):
            new.append((move[0], tuple((label, put(rest, name, what)) for label, rest in move[1])))
        else:
            new.append(("rec", move[1], put(move[2], name, what)) if move[0] == "rec" else move)
    return tuple(new)


def unfolded(move):
    return put(move[2], move[1], (move,))


def dual(moves):
    new = []
    for move in moves:
        form = {"!": "?", "?": "!", "+": "&", "&": "+", "Close": "Wait", "Wait": "Close"}.get(move[0], move[0])
        if form in ("+", "&"):
            new.append((form, tuple((label, dual(rest)) for label, rest in move[1])))
        else:
            new.append(("rec", move[1], dual(move[2])) if form == "rec" else (form, *move[1:]))
    return tuple(new)


def closes(moves):
    """Whether a `Close` or `Wait` stands in the moves."""
    return any(move[0] in ("Close", "Wait") or any(map(closes, within(move))) for move in moves)


def within(move):
    if move[0] in ("+", "&"):
        return [rest for _, rest in move[1]]
    return [move[2]] if move[0] == "rec" else []


FOREVER = 10 ** 6


def length(moves):
    """After how many moves nothing is left at the soonest; FOREVER or more where that never is."""
    total = 0
    for move in moves:
        if move[0] == "name":
            total += 0 if move[1] == "a" else FOREVER
        elif move[0] == "rec":
            total += length(move[2])
        else:
            total += 1 + min(map(length, within(move)), default=0)
        if move[0] in ("Close", "Wait"):
            break
    return min(total, FOREVER)


def at(term, level):
    """The text of a term where one of this level is wanted."""
    return term[1] if term[0] >= level else "(%s)" % term[1]


def number(value):
    return ATOM, str(value)


def name(text):
    return ATOM, text


def apply(function, *arguments):
    return APPLIED, " ".join([at(function, ATOM), *(at(argument, ATOM) for argument in arguments)])


def call(word, *arguments):
    """A call of a word of the language or of a global or constructor, with types behind `@` as plain texts."""
    texts_of = [argument if isinstance(argument, str) else at(argument, ATOM) for argument in arguments]
    return (APPLIED if arguments else ATOM), " ".join([word, *texts_of])


def operator(left, sign, right):
    return OPERATOR, "%s %s %s" % (at(left, APPLIED), sign, at(right, APPLIED))


def negated(term):
    return OPERATOR, "not " + at(term, APPLIED)


def pair(first, second):
    return ATOM, "(%s, %s)" % (first[1], second[1])


def let(pattern, what, body):
    return OPEN, "let %s = %s in %s" % (pattern, what[1], body[1])


def choose(condition, yes, no):
    return OPEN, "if %s then %s else %s" % (condition[1], yes[1], no[1])


def sequence(first, then):
    return OPEN, "%s; %s" % (at(first, OPERATOR), then[1])


def arms(word, what, preposition, cases):
    """A `case .. of` or `match .. with`; the cases are pairs of a pattern and a term."""
    return OPEN, "%s %s %s {%s}" % (word, what[1], preposition, ", ".join("%s -> %s" % (left, right[1]) for left, right in cases))


class Types:
    """Writes types, now and then by an alias or in another way that is equal."""

    def __init__(self, random):
        self.random = random
        self.aliases = {}
        self.spelling = random.random() < 0.5

    def text(self, t, place="type"):
        """The text of a type where the grammar takes a `type`, a `part` of an arrow or an `atom`."""
        if t in self.aliases and self.random.random() < 0.8:
            return self.aliases[t]
        if t[0] in ("base", "data"):
            return t[1]
        if t[0] == "pair":
            return "(%s, %s)" % (self.text(t[1]), self.text(t[2]))
        if t[0] == "end":
            return self.protocol(t[1], place)
        text = "%s %s %s" % (self.text(t[1], "part"), t[0], self.text(t[2]))
        return text if place == "type" else "(%s)" % text

    def protocol(self, moves, place="atom"):
        tree = tree_of(moves)
        if self.spelling and self.random.random() < 0.4:
            tree = protocols.equivalent(self.random, tree, self.random.randint(1, 3), most=60)
        return texts.tidy(texts.tokens_of_tree(tree, first=place == "atom"))

    def alias(self, name, t):
        """Declares a name for the type and gives the text of its declaration."""
        text = "type %s = %s" % (name, self.text(t))
        self.aliases[t] = name
        return text
