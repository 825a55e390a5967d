"""Random modules that are well typed by construction, protocols with two programs that follow them, and changed ones."""
from trials import written
from trials.written import BOOL, CHAR, INT, UNIT, call, is_linear, let, name

PLAIN = [INT, INT, INT, BOOL, CHAR, UNIT]
VALUES = {"Int": ["0", "1", "2", "7", "9223372036854775807", "00012"], "Bool": ["True", "False"], "()": ["()"],
          "Char": ["'a'", "'z'", "'\\n'", "'\\''", "'\\\\'", "'\\t'", "'é'", "'A'"]}
LIBRARY = {
    "swap": ("forall a:1T, b:1T. (a, b) -> (b, a)", "swap p = let (x, y) = p in (y, x)"),
    "same": ("forall a:1T. a -> a", "same x = x"),
    "twice": ("forall b:*T. b -> (b, b)", "twice x = (x, x)"),
    "flip": ("forall a:*T, b:1T. a -> b -> (b, a)", "flip x y = (y, x)"),
    "call": ("forall a:1T, b:1T. (a 1-> b) -> a 1-> b", "call f x = f x"),
    "done": ("forall a:*S. a -> ()", "done c = ()"),
}


class Protocols:
    """Random protocols that a program can follow: a `rec` that closes its channel comes back to itself at its ends alone."""

    def __init__(self, random):
        self.random = random
        self.labels = random.sample(["A", "B", "C", "Leaf", "Node", "Stop"], random.randint(2, 4))
        self.bases = random.sample(["Int", "Int", "Bool", "Char", "()"], 2)
        self.binders = 0

    def protocol(self, many):
        chance = self.random.random()
        if chance < 0.45:
            return self.moves(many)
        if chance < 0.65:
            return self.moves(many // 2) + self.closing()
        return self.tail(many) if chance < 0.85 else self.moves(1) + (self.recursion(many),)

    def message(self):
        return self.random.choice("!?"), self.random.choice(self.bases)

    def closing(self):
        return ((self.random.choice(["Close", "Wait"]),),)

    def choice(self, ends):
        labels = self.random.sample(self.labels, min(len(self.labels), len(ends)))
        return self.random.choice("+&"), tuple(zip(labels, ends))

    def moves(self, many, again=()):
        """Some moves that close nothing, among them names of the `rec`s around, which are in `again`."""
        made = []
        while many > 0:
            kind = self.random.choice("mmmcr" + "nn" * bool(again and made))
            share = self.random.randint(1, many)
            if kind == "m":
                made.append(self.message())
                share = 1
            elif kind == "n":
                made.append(("name", self.random.choice(again)))
            elif kind == "c":
                made.append(self.choice([self.moves(share // 2, again) for _ in range(self.random.randint(1, 2))]))
            else:
                made.append(self.recursion(share, again))
            many -= share
        return tuple(made)

    def recursion(self, many, again=()):
        """A `rec` that closes nothing: it begins with a choice, of which one branch mostly ends."""
        self.binders += 1
        binder = "t%d" % self.binders
        ends = [() if self.random.random() < 0.9 else (("name", binder),)]
        for _ in range(self.random.randint(1, 2)):
            ends.append((self.message(), *self.moves(many // 2, (*again, binder)), ("name", binder)))
        self.random.shuffle(ends)
        return "rec", binder, (self.choice(ends),)

    def tail(self, many):
        """A `rec` that comes back to itself at its ends alone, and may close its channel."""
        self.binders += 1
        binder = "l%d" % self.binders
        if self.random.random() < 0.2:
            return (("rec", binder, (self.message(), *self.moves(many // 2), ("name", binder))),)
        ends = [self.random.choice([(), self.closing(), self.moves(1) + self.closing()])]
        for _ in range(self.random.randint(1, 2)):
            ends.append((*self.moves(many // 2), ("name", binder)))
        return (("rec", binder, (*self.moves(self.random.randint(0, 1)), self.choice(ends))),)


class Module:
    """A module as it is made: its declarations, and what terms of a type are made of."""

    def __init__(self, random):
        self.random = random
        self.types = written.Types(random)
        self.protocols = Protocols(random)
        self.declarations = []
        self.data = {}
        self.helpers = {}
        self.library = set()
        self.names = 0
        self.room = random.randint(10, 60)

    def chance(self, share):
        return self.random.random() < share

    def fresh(self, start):
        self.names += 1
        return "%s%d" % (start, self.names)

    def local(self, live):
        """A name for a variable, which hides none of the linear ones."""
        hidden = {item[0] for item in live}
        return next((name for name in self.random.sample("cdxynkf", 7) if name not in hidden), None) or self.fresh("v")

    # Declarations.

    def add_data(self):
        """A data type; its first constructor can be made of what is there already."""
        data = "D%d" % len(self.data)
        fields = [self.printable() for _ in range(self.random.randint(0, 2))]
        constructors = [(self.fresh("K"), fields)]
        self.data[data] = constructors
        for _ in range(self.random.randint(0, 2)):
            constructors.append((self.fresh("K"), [self.printable() for _ in range(self.random.randint(0, 3))]))
        makers = [" ".join([maker, *(self.types.text(field, "atom") for field in fields)]) for maker, fields in constructors]
        self.declarations.append("data %s = %s" % (data, " | ".join(makers)))

    def printable(self, depth=1):
        chance = self.random.random()
        if depth and chance < 0.2:
            return "pair", self.printable(0), self.printable(0)
        if self.data and chance < 0.5:
            return "data", self.random.choice(sorted(self.data))
        return self.random.choice(PLAIN)

    def add_global(self, variable, signature, parameters, body, alone=False):
        heads = " ".join([variable, *parameters])
        lines = ["%s : %s" % (variable, signature), "%s = %s" % (heads, body[1])]
        if not alone and self.chance(0.1):
            lines.reverse()
        self.declarations += lines

    def from_library(self, word):
        if word not in self.library:
            self.library.add(word)
            signature, equation = LIBRARY[word]
            self.declarations += ["%s : %s" % (word, signature), equation]
        return word

    # Terms of a type, of variables that are used at will: pairs of a name and a type.

    def value(self, t, around, depth):
        known = [name for name, other in around if other == t]
        if known and self.chance(0.45):
            return name(self.random.choice(known))
        if depth > 0 and self.chance(0.5):
            return self.wrapped(t, around, depth - 1)
        if t[0] == "base":
            return self.base_value(t, around, depth - 1)
        if t[0] == "pair":
            return written.pair(self.value(t[1], around, depth - 1), self.value(t[2], around, depth - 1))
        if t[0] == "data":
            return self.built(t[1], around, depth - 1)
        if t[0] in ("->", "1->"):
            x = self.local(())
            body = self.value(t[2], bound(around, (x, t[1])), depth - 1)
            return written.OPEN, "\\%s:%s %s %s" % (x, self.types.text(t[1], "part"), t[0], body[1])
        return name(known[0]) if known else self.spent_end()

    def spent_end(self):
        """An end on which nothing is left to do."""
        return (written.OPEN, "let (a, b) = new !Int in fork (receive b); send 1 a") if self.chance(0.5) else (
            written.OPEN, "let (a, b) = new Skip in a")

    def built(self, data, around, depth):
        constructors = self.data[data] if depth > 0 else self.data[data][:1]
        maker, fields = self.random.choice(constructors)
        return call(maker, *(self.value(field, around, depth - 1) for field in fields))

    def base_value(self, t, around, depth):
        if depth <= 0 or t in (CHAR, UNIT) or self.chance(0.3):
            return name(self.random.choice(VALUES[t[1]]))
        if t == INT:
            return written.operator(self.value(INT, around, depth), self.random.choice("+-*"), self.value(INT, around, depth))
        chance = self.random.random()
        if chance < 0.2:
            return written.negated(self.value(BOOL, around, depth))
        if chance < 0.4:
            return written.operator(self.value(BOOL, around, depth), self.random.choice(["&&", "||"]), self.value(BOOL, around, depth))
        kind = self.random.choice([INT, INT, CHAR])
        sign = self.random.choice(["==", "/=", "<", "<=", ">", ">="])
        return written.operator(self.value(kind, around, depth), sign, self.value(kind, around, depth))

    def wrapped(self, t, around, depth):
        """A term of a form that any type may have."""
        kind = self.random.choice(["let", "pair", "if", "case", "apply", "sequence", "twice", "same", "flip", "fork"])
        inner = self.printable()
        if kind == "let":
            x = self.local(())
            return let(x, self.value(inner, around, depth), self.value(t, bound(around, (x, inner)), depth))
        if kind == "pair" and not is_linear(t):
            return self.taken_apart(t, self.value(("pair", inner, t), around, depth), inner, t, around, depth)
        if kind == "if":
            return written.choose(self.value(BOOL, around, depth), self.value(t, around, depth), self.value(t, around, depth))
        if kind == "case" and self.data:
            return self.cases(self.random.choice(sorted(self.data)), around, lambda known: self.value(t, known, depth), depth)
        if kind == "apply":
            function = self.value((self.random.choice(["->", "1->"]), inner, t), around, depth)
            return written.apply(function, self.value(inner, around, depth))
        if kind == "sequence":
            return written.sequence(self.value(inner, around, depth), self.value(t, around, depth))
        if kind == "twice":
            twice = call(self.from_library("twice"), "@" + self.types.text(inner, "atom"), self.value(inner, around, depth))
            return self.taken_apart(t, twice, inner, inner, around, depth)
        if kind == "same" and not is_linear(t):
            return call(self.from_library("same"), *self.type_argument(t, around), self.value(t, around, depth))
        if kind == "flip":
            flip = call(self.from_library("flip"), *self.type_argument(inner, around), "@" + self.types.text(INT, "atom"),
                        self.value(inner, around, depth), self.value(INT, around, depth))
            return self.taken_apart(t, flip, INT, inner, around, depth)
        if kind == "fork":
            return written.sequence(call("fork", self.value(inner, around, depth)), self.value(t, around, depth))
        return self.value(t, around, depth)

    def type_argument(self, t, around):
        return ["@" + self.types.text(t, "atom")]

    def taken_apart(self, t, what, first, second, around, depth):
        x, y = self.random.sample(["x", "y", "k", "n"], 2)
        return let("(%s, %s)" % (x, y), what, self.value(t, bound(around, (x, first), (y, second)), depth))

    def cases(self, data, around, body, depth):
        """A `case` of a value of the data type; `body` gives the term of an arm for what is around it there."""
        what = self.value(("data", data), around, depth)
        made = []
        for maker, fields in self.data[data]:
            names = ["x%d" % place for place, _ in enumerate(fields)]
            made.append((" ".join([maker, *names]), body(bound(around, *zip(names, fields)))))
        self.random.shuffle(made)
        return written.arms("case", what, "of", made)


def bound(around, *new):
    """What is around a term within binders of these names and types; of two with one name the later one counts."""
    names = {name for name, _ in new}
    return [item for item in around if item[0] not in names] + list(dict(new).items())
