"""What the types of a question perform, read by examples/audit.py, and their least difference as far as so many pairs show it."""
import collections
import importlib.util
import os

from trials import texts

TOP = os.path.dirname(os.path.dirname(os.path.dirname(os.path.abspath(__file__))))


def load_audit():
    found = importlib.util.spec_from_file_location("audit", os.path.join(TOP, "examples", "audit.py"))
    module = importlib.util.module_from_spec(found)
    found.loader.exec_module(module)
    return module


audit = load_audit()
ENDS = (audit.NAMED.index("Close"), audit.NAMED.index("Wait"))


class Steps:
    """Closed types as words of numbers. Each number stands for a closed type that is no sequence; its moves are looked up once."""

    def __init__(self):
        self.types = []
        self.numbers = {}
        self.known = {}

    def word(self, tree):
        if audit.is_terminated(tree):
            return ()
        if tree[0] == ";":
            return self.word(tree[2]) + self.word(tree[3])
        if tree not in self.numbers:
            self.numbers[tree] = len(self.types)
            self.types.append(tree)
        return (self.numbers[tree],)

    def moves(self, number):
        """The word after each label, or None behind an end."""
        if number not in self.known:
            tree = self.types[number]
            if tree[0] == "name":
                self.known[number] = {tree[1]: None if tree[1] in ENDS else ()}
            elif tree[0] == "rec":
                self.known[number] = self.followed(self.word(unfolded(tree[2], tree, 0)))
            else:
                self.known[number] = {label: self.word(part) for label, part in zip(tree[1], tree[2:])}
        return self.known[number]

    def followed(self, word):
        """The word after each label by which a word moves, and None behind an end, whatever stands behind the word."""
        return {label: then if then is None else then + word[1:] for label, then in self.moves(word[0]).items()} if word else {}

    def after(self, word):
        """The word after each label by which a word moves; behind an end nothing is left."""
        return {label: then or () for label, then in self.followed(word).items()}


def unfolded(tree, whole, depth):
    """The tree with the whole type in place of the variable that so many binders are around."""
    if tree[0] == "back":
        return whole if tree[1] == depth else tree
    inner = depth + 1 if tree[0] == "rec" else depth
    return (*tree[:2], *(unfolded(part, whole, inner) for part in tree[2:]))


def order(label):
    """`!` before `?` before `+` before `&` before `Close` before `Wait` before variables."""
    if isinstance(label, str):
        return "+&".index(label[0]) + 2, label.encode()
    return (0 if label < 4 else 1 if label < 8 else 4), label


def label_text(label):
    if isinstance(label, str):
        return label
    return audit.NAMED[label] if label < len(audit.NAMED) else "a%d" % (label - len(audit.NAMED) + 1)


def read(text):
    """The two types of a question that is known to be one."""
    left, right, _ = audit.read_question(" ".join(texts.tokens_of(text)))
    return left, right


def least_difference(text, most):
    """`no W side` as the program writes it, `yes` where there is no difference, or None where so many pairs show neither."""
    steps = Steps()
    left, right = read(text)
    first = steps.word(left), steps.word(right)
    seen, waiting = {first}, collections.deque([(first, ())])
    while waiting:
        (one, two), trace = waiting.popleft()
        ones, twos = steps.after(one), steps.after(two)
        for label in sorted({**ones, **twos}, key=order):
            if (label in ones) != (label in twos):
                return "no %s %s" % (" ".join([*trace, label_text(label)]), "left" if label in ones else "right")
            pair = ones[label], twos[label]
            if pair[0] != pair[1] and pair not in seen:
                if len(seen) >= most or len(pair[0]) + len(pair[1]) > 2000:
                    return None
                seen.add(pair)
                waiting.append((pair, (*trace, label_text(label))))
    return "yes"


def performs(steps, word, trace):
    for label in trace:
        found = {label_text(known): then for known, then in steps.after(word).items()}
        if label not in found:
            return False
        word = found[label]
    return True


def is_performed_alone(text, trace, side):
    steps = Steps()
    left, right = (performs(steps, steps.word(tree), trace) for tree in read(text))
    return left != right and left == (side == "left")
