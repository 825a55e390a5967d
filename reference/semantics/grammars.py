"""Two types as words of a simple grammar (docs/SEMANTICS.md, Pairs of words; docs/LANGUAGE.md, Certificates).

A word is a tuple of non-terminals, which are numbers. `rows` has for each the list of its rules, which are pairs of a letter and a
word; letters are numbers, too, in the order of labels.
"""
import heapq

from .faults import MOST_LETTERS, MOST_NODES, too_large
from .steps import CHOICES, own_labels, rank
from .types import within

MOST_NORM = 2 ** 63


class Grammar:
    """`IsTranslation`: the grammar of two types, with the word of each. One that `IsTooLarge` is a fault at this place."""

    def __init__(self, left, right, at):
        self.at = at
        if max(left.nodes, right.nodes) > MOST_NODES:
            raise too_large(at)
        self.labels = sorted({label for t in (left, right) for part in within(t) for label in own_labels(part)}, key=rank)
        self.letter_of = {label: k for k, label in enumerate(self.labels)}
        names = [label for label in self.labels if label[0] not in CHOICES.values()]
        self.numbers = {label: n for n, label in enumerate(names)}
        self.equations = {}
        self.words = [self.word(t, t, 0, ()) for t in (left, right)]
        self.rows, self.size = [None] * len(self.numbers), 0
        for label in names:
            is_end = label[0] in ("Close", "Wait")
            self.note_row(self.numbers[label], [(self.letter_of[label], (len(self.numbers),) * is_end)])
        self.rows += [[]] * any(label[0] in ("Close", "Wait") for label in names)
        for n in self.equations:
            self.row(n)
        self.marks = [norm is None for norm in norms_of(self.rows)]  # `AreUnnormed`: those that never end

    def word(self, t, whole, place, binders):
        """`word`: that of a part at a place, counted in nodes, in the smallest closed type around it, under these binders."""
        if t.done:
            return ()
        if t.form == "seq":
            first, rest = t.parts
            return self.word(first, whole, place + 1, binders) + self.word(rest, whole, place + 1 + first.nodes, binders)
        if t.form == "back":
            return (binders[-1 - t.value],)
        if t.form not in CHOICES and t.form != "rec":
            return (self.numbers[own_labels(t)[0]],)
        if t.open == 0:
            whole, place, binders = t, 0, ()
        if (whole, place) not in self.numbers:
            n = self.numbers[whole, place] = len(self.numbers)
            self.equations[n] = self.equation(t, whole, place, binders + (n,) * (t.form == "rec"))
        return (self.numbers[whole, place],)

    def equation(self, t, whole, place, binders):
        """`part_equation`: the rules of a choice by its branches, and for a `rec` the word of its body."""
        words = []
        for part in t.parts:
            words.append(self.word(part, whole, place + 1, binders))
            place += part.nodes + 1
        if t.form == "rec":
            return words[0]
        return sorted(zip((self.letter_of[label] for label in own_labels(t)), words))

    def row(self, n):
        """`rules_by`: the rules by an equation; those of a word are the ones of its first non-terminal, with the rest behind."""
        if self.rows[n] is None:
            equation = self.equations[n]
            if isinstance(equation, tuple):
                rest = equation[1:]
                equation = [(letter, word + rest) for letter, word in self.row(equation[0])]
            self.note_row(n, equation)
        return self.rows[n]

    def note_row(self, n, row):
        self.rows[n] = row
        self.size += sum(len(word) for _, word in row)
        if self.size > MOST_LETTERS:
            raise too_large(self.at)

    def pruned(self, word):
        """`pruned_word`: the word up to its first non-terminal that never ends."""
        cut = next((k + 1 for k, n in enumerate(word) if self.marks[n]), len(word))
        return word[:cut]


def norms_of(rows):
    """`AreNorms`: the norm of each non-terminal, or None. The least one that is left is looked at next."""
    rules = [(n, word) for n, row in enumerate(rows) for _, word in row]
    uses = [[] for _ in rows]
    for k, (_, word) in enumerate(rules):
        for n in word:
            uses[n].append(k)
    waits, sums, norms = [len(word) for _, word in rules], [1] * len(rules), [None] * len(rows)
    heap = [(1, n) for n, word in rules if not word]
    heapq.heapify(heap)
    while heap:
        norm, n = heapq.heappop(heap)
        if norms[n] is None:
            norms[n] = norm
            for k in uses[n]:
                waits[k] -= 1
                sums[k] += norm
                if not waits[k]:
                    heapq.heappush(heap, (sums[k], rules[k][0]))
    return norms


class Norms:
    """`AreMeasures`: the norms of a grammar that are below 2^63, and what lowers them."""

    def __init__(self, rows):
        self.norms = [norm if norm is not None and norm < MOST_NORM else None for norm in norms_of(rows)]
        self.lowering = [self.lowering_of(norm, row) for norm, row in zip(self.norms, rows)]
        self.residuals = {}

    def lowering_of(self, norm, row):
        """`lowering`: what a non-terminal becomes by the least letter that lowers its norm, which is a sum (`has_norm`)."""
        return norm and next(word for _, word in row if sum(self.norms[n] or MOST_NORM for n in word) == norm - 1)

    def residual(self, head, steps):
        """`residual`, `lowered_head`: what a non-terminal becomes by so many letters, each the least that lowers its norm."""
        if (head, steps) not in self.residuals:
            self.residuals[head, steps] = self.lowered(head, steps)
        return self.residuals[head, steps]

    def lowered(self, head, steps):
        rest = [head]
        while steps:
            n = rest.pop()
            if self.norms[n] <= steps:
                steps -= self.norms[n]
            else:
                rest += reversed(self.lowering[n])
                steps -= 1
        return tuple(reversed(rest))
