"""Words that share their tails, and pairs of them that may come to be a basis (docs/SEMANTICS.md, Pairs of words)."""


class Words:
    """`IsTable`: words as numbers, so that equal words are one number; 0 is the empty one. Each is pruned."""

    def __init__(self, grammar):
        self.marks = grammar.marks
        self.rows = [{letter: grammar.pruned(word) for letter, word in row} for row in grammar.rows]
        self.heads, self.tails, self.numbers = [None], [None], {}

    def put(self, head, tail):
        """The number of the word with this head in front of another word."""
        if (head, tail) not in self.numbers:
            self.numbers[head, tail] = len(self.heads)
            self.heads.append(head)
            self.tails.append(tail)
        return self.numbers[head, tail]

    def front(self, word, tail=0):
        """The number of a pruned word in front of another one, which goes where the first one never ends."""
        if word and self.marks[word[-1]]:
            tail = 0
        for n in reversed(word):
            tail = self.put(n, tail)
        return tail

    def flat(self, w):
        """The word with this number."""
        found = []
        while w:
            found.append(self.heads[w])
            w = self.tails[w]
        return tuple(found)

    def row(self, w):
        """`first_row`: the rules by which a word moves, those of its head."""
        return self.rows[self.heads[w]] if w else {}

    def step(self, w, letter):
        """The pruned residual after a letter that the word performs."""
        return self.front(self.row(w)[letter], self.tails[w])


class Pairs:
    """Pairs of words, each listed once and then looked at in turn, of which `room` says how many more there may be.

    A method says by its `exchanges` which pairs join two words: for each place at which they differ in turn the pair there, how it
    is rewritten, "f" or "b", and whether that comes behind all rewrites at the places after it.
    """

    def __init__(self, words, room):
        self.words, self.room, self.pairs, self.places = words, room, [], {}

    def note(self, x, y):
        """Whether the pair is a new one, which is then listed."""
        if x == y or (x, y) in self.places:
            return False
        self.places[x, y] = len(self.pairs)
        self.pairs.append((x, y))
        return True

    def are_closed(self):
        """Whether the words of each pair perform the same letters, and what they become is met, by pairs that are listed then."""
        for x, y in self.pairs:
            left, right = self.words.row(x), self.words.row(y)
            if left.keys() != right.keys():
                return False
            if not all(self.meet(self.words.step(x, letter), self.words.step(y, letter)) for letter in left):
                return False
        return True

    def meet(self, x, y):
        """Whether two words are joined by pairs without an empty word, for which there is room."""
        for how, _, left, right in self.exchanges(x, y):
            if left != right and not (left and right):
                return False
            self.room -= self.cost(how, left != right, self.note(left, right))
            if self.room < 0:
                return False
        return True

    def link(self, x, y):
        """`Leads`: the rewrites that lead from one word to the other."""
        first, last = [], []
        for place, (how, is_last, left, right) in enumerate(self.exchanges(x, y)):
            if left != right:
                (last if is_last else first).append((how or "f", place, self.places[left, right]))
        return first + last[::-1]
