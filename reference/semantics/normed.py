"""Questions of two words of which all parts can end: these are decided (docs/LANGUAGE.md, Equivalence; docs/crates/fst_normed.md)."""
from .words import Pairs

MOST_REWRITES = 1000000


class Needs(Pairs):
    """`decide`: the candidates that the question of two words needs (`IsNeeded`), each looked at once; `are_good` where all hold.

    Of two heads X and Y, the norm of X not above that of Y, the candidate is the pair of Y and X B, where B is what Y becomes.
    """

    def __init__(self, words, norms, x, y):
        super().__init__(words, MOST_REWRITES)
        self.norms = norms
        self.are_good = self.meet(x, y) and self.are_closed()

    def cost(self, how, differ, is_new):
        """Each rewrite counts."""
        return differ

    def exchanges(self, x, y):
        """`AreJoinedByHeads`: equal heads are dropped; else that of greater norm, the right one at a tie, is exchanged before."""
        heads, tails = self.words.heads, self.words.tails
        while x != y:
            if not x or not y:
                yield "f", False, x, y
                return
            n, m = heads[x], heads[y]
            if n == m:
                yield "f", False, x, x
                x, y = tails[x], tails[y]
            elif self.norms.norms[n] > self.norms.norms[m]:
                yield "f", False, *self.candidate(m, n)
                x, y = self.words.front(self.residual(m, n), tails[x]), tails[y]
            else:
                yield "b", True, *self.candidate(n, m)
                x, y = tails[x], self.words.front(self.residual(n, m), tails[y])

    def residual(self, n, m):
        """`residual`: what m becomes by as many letters as the norm of n is."""
        return self.norms.residual(m, self.norms.norms[n])

    def candidate(self, n, m):
        """`candidate`"""
        return self.words.put(m, 0), self.words.put(n, self.words.front(self.residual(n, m)))
