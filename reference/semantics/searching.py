"""Questions of two words by plain search (docs/SEMANTICS.md, Pairs of words)."""
from .words import Pairs


class Search(Pairs):
    """`search`: the first pairs of two words that are reached, each once, by least traces (`AreFirst`); `answer` is one of

    ("equal",), ("differ", trace of letters, side) and ("spent",): `IsEqual`, `IsDifferent`, `IsBudgetSpent`.
    """

    def __init__(self, words, x, y, budget):
        super().__init__(words, budget)
        self.came = [None] * self.note(x, y)
        self.answer = self.look()

    def look(self):
        for place, (x, y) in enumerate(self.pairs):
            if place == self.room:
                return ("spent",)
            left, right = self.words.row(x), self.words.row(y)
            if left.keys() != right.keys():
                letter = min(left.keys() ^ right.keys())
                return "differ", self.trace(place) + [letter], "left" if letter in left else "right"
            for letter in left:
                if self.note(self.words.step(x, letter), self.words.step(y, letter)):
                    self.came.append((place, letter))
        return ("equal",)

    def trace(self, place):
        """The trace of letters that leads to a pair."""
        letters = []
        while self.came[place]:
            place, letter = self.came[place]
            letters.append(letter)
        return letters[::-1]

    def exchanges(self, x, y):
        """`AreSameOrPair`: what two words become that perform the same traces is the same word, or again a pair."""
        yield "f", False, x, y
