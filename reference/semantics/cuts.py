"""Questions of two words by dropping heads (docs/SEMANTICS.md, Pairs of words; docs/crates/fst_expand.md)."""
from .words import Pairs

MOST_STEPS = 4096


class Cuts(Pairs):
    """The cuts that two words lead to (`IsReachedCut`); `are_good` tells whether they are at the budget (`IsGood`)."""

    def __init__(self, words, norms, x, y, budget):
        super().__init__(words, budget)
        self.norms = norms
        self.are_good = self.meet(x, y) and self.are_closed()

    def cost(self, how, differ, is_new):
        """Each head that is dropped counts, and each cut."""
        return (how is not None) + is_new

    def exchanges(self, x, y):
        """`HasCuts`: the cut of each head that is dropped, and last what is left where no head is dropped."""
        put, front, heads, tails = self.words.put, self.words.front, self.words.heads, self.words.tails
        while x != y:
            side, norm = self.dropped(x, y)
            if side is None:
                yield None, False, x, y
                return
            rest = self.norms.residual(heads[y if side == "left" else x], norm)
            if side == "left":
                yield "f", True, put(heads[x], front(rest)), put(heads[y], 0)
                x, y = tails[x], front(rest, tails[y])
            else:
                yield "f", False, put(heads[x], 0), put(heads[y], front(rest))
                x, y = front(rest, tails[x]), tails[y]

    def dropped(self, x, y):
        """`dropped`: of two heads the one of lesser norm, the left one at a tie, if both have one and it is small enough."""
        left, right = (self.norms.norms[self.words.heads[w]] if w else None for w in (x, y))
        if left is None or right is None or min(left, right) > MOST_STEPS:
            return None, None
        return ("left", left) if left <= right else ("right", right)
