"""Whether two types are equivalent, and how types of any shape compare (docs/LANGUAGE.md, Equivalence, Equal types)."""
from collections import namedtuple

from .bases import proved
from .cuts import Cuts
from .faults import OutOfMemory
from .grammars import Grammar, Norms
from .normed import Needs
from .searching import Search
from .words import Words

MOST_LISTED = 1000000

# `Verdict`: "yes" with what makes its proof, "no" with the least trace and its side, or "undecided"; of types of any shape
# "shape" too, where two forms differ
Verdict = namedtuple("Verdict", "answer trace side proof", defaults=(None, None, None))
YES, SHAPE, UNDECIDED = Verdict("yes"), Verdict("shape"), Verdict("undecided")


def ask(t, u, budget, at):
    """`IsVerdict`: of two session types; at this place it is told where they have no grammar within the limits."""
    return Question(Grammar(t, u, at)).answer(budget)


class Question:
    """Whether two words of a grammar perform the same traces."""

    def __init__(self, grammar):
        self.grammar, self.words, self.norms = grammar, Words(grammar), Norms(grammar.rows)
        self.x, self.y = (self.words.front(grammar.pruned(word)) for word in grammar.words)

    def answer(self, budget):
        """`IsFinding`: decided, where all parts can end within the budget (`IsNormedWithin`), else by the cuts, and by search."""
        is_normed = None not in self.norms.norms and len(self.grammar.rows) ** 2 <= budget
        found = self.decided() if is_normed else UNDECIDED
        if found is UNDECIDED:
            cuts = Cuts(self.words, self.norms, self.x, self.y, budget)
            found = self.yes(cuts) if cuts.are_good else self.searched(budget)
        if found is UNDECIDED and is_normed:
            raise OutOfMemory
        return found

    def decided(self):
        """Yes by the candidates that are needed, no by the least trace, or undecided where either takes too much."""
        needs = Needs(self.words, self.norms, self.x, self.y)
        if needs.are_good:
            return self.yes(needs)
        return UNDECIDED if needs.room < 0 else self.searched(MOST_LISTED)  # `TakesMore`

    def searched(self, budget):
        """`IsSearched`"""
        search = Search(self.words, self.x, self.y, budget)
        answer, *rest = search.answer
        if answer == "equal":
            return self.yes(search)
        return Verdict("no", [self.grammar.labels[k] for k in rest[0]], rest[1]) if answer == "differ" else UNDECIDED

    def yes(self, found):
        return Verdict("yes", proof=lambda: proved(self.grammar, self.words, self.x, self.y, found))


PARTS = {"skip", "send", "receive", "close", "wait", "select", "offer", "seq", "rec", "back", "var"}


def compare(t, u, budget, at):
    """`HasOutcome`: node by node, the left part before the right one; the first two parts that aren't found equal decide."""
    if t is u:
        return YES
    if t.form in PARTS and u.form in PARTS:
        return ask(t, u, budget, at)
    if t.form != u.form or t.value != u.value or t.form not in ("arrow", "pair"):
        return SHAPE
    first = compare(t.parts[0], u.parts[0], budget, at)
    return first if first.answer != "yes" else compare(t.parts[1], u.parts[1], budget, at)
