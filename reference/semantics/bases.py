"""Bases with chains of rewrites (docs/crates/fst_basis.md), and their texts, certificates (docs/LANGUAGE.md, Certificates).

A rewrite is ("f", place, pair), ("b", place, pair), ("c", place, tail) or ("g", place, tail): `Forth`, `Back`, `Cut`, `Grow`.
"""
import re

from .faults import OutOfMemory

MOST_IN_WORD = 16777216
NUMBER = "(?:0|[1-9][0-9]{0,19})"
COUNT = {word: re.compile("%s (%s)" % (word, NUMBER)) for word in ("pairs", "chains")}
PAIR = re.compile("pair((?: %s)+) ~((?: %s)+)" % (NUMBER, NUMBER))
CHAIN = re.compile("chain((?: [fb]%s:%s| [cg]%s(?:[.]%s)*)*)" % ((NUMBER,) * 4))
MOST_32, MOST_64 = 2 ** 32 - 1, 2 ** 64 - 1


def proved(grammar, words, x, y, found):
    """`IsProofOf`: the pairs that were found as words, and their chains: one for x and y, then one for each letter of each pair."""
    basis = [(words.flat(left), words.flat(right)) for left, right in found.pairs]
    return basis, [found.link(x, y)] + [whole_chain(grammar, words, found, *goal) for goal in goals_of(grammar.rows, basis)]


def goals_of(rows, basis):
    """What the words of each pair become by each letter that both perform."""
    return [(word + left[1:], other + right[1:]) for left, right in basis
            for (_, word), (_, other) in zip(rows[left[0]], rows[right[0]])]


def whole_chain(grammar, words, found, word, goal):
    """`AreCutOff`: what stands behind the first non-terminal that never ends is cut off before, and grows again behind."""
    short, end = grammar.pruned(word), grammar.pruned(goal)
    cut = [("c", len(short) - 1, word[len(short):])] * (short != word)
    grow = [("g", len(end) - 1, goal[len(end):])] * (end != goal)
    return cut + found.link(words.front(short), words.front(end)) + grow


def is_proof(grammar, u, v, basis, chains):
    """`IsProof`: the pairs are a basis by the chains behind the first one, and that one joins the two words."""
    rows = grammar.rows
    numbers = [n for pair in basis for word in pair for n in word]
    numbers += [n for chain in chains for kind, _, what in chain if kind in "cg" for n in what]
    if any(n >= len(rows) for n in numbers):
        return False
    letters = [[[letter for letter, _ in rows[word[0]]] for word in pair] for pair in basis]
    goals = [(u, v), *goals_of(rows, basis)]
    return all(left == right for left, right in letters) and len(goals) == len(chains) and all(
        chained(grammar.marks, basis, list(word), chain) == list(goal) for (word, goal), chain in zip(goals, chains))


def chained(marks, basis, word, chain):
    """`chained`: the word after a chain of rewrites, or None where one of them can't be made (`rewritten`)."""
    for kind, at, what in chain:
        if kind in "fb":
            if what >= len(basis):
                return None
            old, new = basis[what] if kind == "f" else basis[what][::-1]
            end = at + len(old)
        else:
            if at >= len(word) or not marks[word[at]]:
                return None
            old, new = (what, ()) if kind == "c" else ((), what)
            at, end = at + 1, len(word)
        if tuple(word[at:end]) != tuple(old):
            return None
        word[at:end] = new
        if len(word) > MOST_IN_WORD:
            raise OutOfMemory
    return word


def certificate_text(basis, chains):
    """`cert_text`"""
    lines = ["pairs %d" % len(basis)]
    lines += ["pair %s ~ %s" % tuple(" ".join(map(str, word)) for word in pair) for pair in basis]
    lines += ["chains %d" % len(chains)]
    lines += [" ".join(["chain", *(rewrite_text(*rewrite) for rewrite in chain)]) for chain in chains]
    return "".join(line + "\n" for line in lines)


def rewrite_text(kind, at, what):
    return kind + str(at) + (":%d" % what if kind in "fb" else "".join(".%d" % n for n in what))


class BadLine(Exception):
    """`IsFirstBad`: the first line, counted from 1, that no certificate has there."""


class CertificateReader:
    """`IsCertOf`: the basis and the chains of a text, or the first line that no certificate has there."""

    def __init__(self, text):
        self.lines, self.place = text.split("\n"), 0
        last = self.lines.pop()
        self.basis = [tuple(self.numbers(word.split()) for word in self.take(PAIR))
                      for _ in range(*self.numbers(self.take(COUNT["pairs"])))]
        self.chains = [[self.rewrite(piece) for piece in self.take(CHAIN)[0].split()]
                       for _ in range(*self.numbers(self.take(COUNT["chains"]), MOST_64))]
        if last or self.place < len(self.lines):
            raise BadLine(self.place + 1)

    def take(self, pattern):
        """The parts of the next line, which has to be of this form."""
        self.place += 1
        found = self.place <= len(self.lines) and pattern.fullmatch(self.lines[self.place - 1])
        if not found:
            raise BadLine(self.place)
        return found.groups()

    def numbers(self, texts, most=MOST_32):
        """The numbers of the line, none of which may be over the most."""
        found = tuple(map(int, texts))
        if any(n > most for n in found):
            raise BadLine(self.place)
        return found

    def rewrite(self, piece):
        """`IsRewriteFit`"""
        at, *rest = re.split("[:.]", piece[1:])
        numbers = self.numbers(rest)
        return piece[0], *self.numbers([at], MOST_64), numbers[0] if piece[0] in "fb" else numbers
