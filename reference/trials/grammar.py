"""Random texts by the grammar of docs/LANGUAGE.md: modules of which nothing has to mean anything, and the same with faults."""
from trials import texts
from trials.protocols import Style, random_tree

LOWER = ["f", "g", "main", "x", "y", "c", "a", "x'", "_", "ß"]
UPPER = ["A", "B", "D", "T", "L'", "S"]
CONSTANTS = ["0", "5", "007", "9223372036854775807", "'c'", "'\\n'", "'\\\\'", "'é'", "True", "False"]


class Text:
    """Tokens of each form of the grammar; `left` says how many more forms may be begun."""

    def __init__(self, random, many):
        self.random = random
        self.left = many

    def lower(self):
        return self.random.choice(LOWER)

    def upper(self):
        return self.random.choice(UPPER)

    def listed(self, item, most=3):
        tokens = item()
        for _ in range(self.random.randint(0, most - 1)):
            tokens = [*tokens, ",", *item()]
        return tokens

    def one_of(self, *makers):
        self.left -= 1
        return self.random.choice(makers[:1] if self.left < 0 else makers)()

    # Types.

    def type(self):
        return self.one_of(self.protocol, self.protocol, lambda: [*self.protocol(), *self.arrow(), *self.type()])

    def arrow(self):
        return self.random.choice([["->"], ["->"], ["1", "->"], ["01", "->"]])

    def protocol(self):
        style = Style(self.random, recursive=True, ends=True, variables=("a", "x"))
        return self.one_of(lambda: texts.tokens_of_tree(random_tree(style, self.random.randint(1, 5)), self.random), self.part,
                           lambda: [*self.part(), ";", *self.protocol()], lambda: ["rec", self.lower(), ".", *self.protocol()])

    def part(self):
        return self.one_of(lambda: [self.random.choice(["Skip", "Int", "Bool", "Char", "Close", "Wait", self.lower(), self.upper()])],
                           lambda: ["(", ")"], lambda: ["!", "Int"], lambda: ["?", "(", ")"],
                           lambda: ["(", *self.type(), ")"], lambda: ["(", *self.type(), ",", *self.type(), ")"],
                           lambda: [self.random.choice("+&"), "{", *self.listed(self.branch), "}"])

    def branch(self):
        return [self.upper(), ":", *self.protocol()]

    # Declarations.

    def declaration(self):
        return self.random.choice([self.data, self.alias, self.signature, self.equation, self.equation])()

    def data(self):
        tokens = ["data", self.upper(), "=", *self.maker()]
        for _ in range(self.random.randint(0, 2)):
            tokens += ["|", *self.maker()]
        return tokens

    def maker(self):
        return [self.upper(), *(token for _ in range(self.random.randint(0, 2)) for token in self.part())]

    def alias(self):
        return ["type", self.upper(), "=", *self.type()]

    def signature(self):
        variables = ["forall", *self.listed(self.binder), "."] if self.random.random() < 0.3 else []
        return [self.lower(), ":", *variables, *self.type()]

    def binder(self):
        return [self.lower(), ":", self.random.choice("*1"), self.random.choice("ST")]

    def equation(self):
        return [self.lower(), *(self.lower() for _ in range(self.random.randint(0, 2))), "=", *self.term()]

    # Terms.

    def term(self):
        return self.one_of(self.disjunction, self.disjunction, lambda: [*self.disjunction(), ";", *self.term()],
                           lambda: ["let", self.lower(), "=", *self.term(), "in", *self.term()],
                           lambda: ["let", "(", self.lower(), ",", self.lower(), ")", "=", *self.term(), "in", *self.term()],
                           lambda: ["if", *self.term(), "then", *self.term(), "else", *self.term()],
                           lambda: ["\\", self.lower(), ":", *self.protocol(), *self.arrow(), *self.term()],
                           lambda: ["case", *self.term(), "of", "{", *self.listed(self.case_arm), "}"],
                           lambda: ["match", *self.term(), "with", "{", *self.listed(self.match_arm), "}"])

    def case_arm(self):
        return [self.upper(), *(self.lower() for _ in range(self.random.randint(0, 2))), "->", *self.term()]

    def match_arm(self):
        return [self.upper(), self.lower(), "->", *self.term()]

    def disjunction(self):
        return self.chain(["||"], lambda: self.chain(["&&"], self.comparison))

    def comparison(self):
        def addition():
            return self.chain(["+", "-"], lambda: self.chain(["*"], self.negation))
        if self.random.random() < 0.1:
            return [*addition(), self.random.choice(["==", "/=", "<", "<=", ">", ">="]), *addition()]
        return addition()

    def chain(self, signs, operand):
        tokens = operand()
        while self.random.random() < 0.1:
            tokens = [*tokens, self.random.choice(signs), *operand()]
        return tokens

    def negation(self):
        return ["not"] * (self.random.random() < 0.05) + self.application()

    def application(self):
        return self.one_of(self.atom, self.atom, lambda: [*self.atom(), *self.atom()], lambda: [*self.atom(), *self.atom(), *self.atom()],
                           lambda: ["send", *self.atom(), *self.atom()], lambda: ["receive", *self.atom()],
                           lambda: ["select", self.upper(), *self.atom()], lambda: ["close", *self.atom()],
                           lambda: ["wait", *self.atom()], lambda: ["new", *self.part()], lambda: ["fork", *self.atom()],
                           lambda: [self.upper(), *self.atom(), *self.atom()], lambda: [self.upper(), *self.atom()])

    def atom(self):
        return self.one_of(lambda: [self.lower()], lambda: [self.random.choice(CONSTANTS)], lambda: [self.upper()], lambda: ["(", ")"],
                           lambda: ["(", *self.term(), ")"], lambda: ["(", *self.term(), ",", *self.term(), ")"],
                           lambda: [self.lower(), "@", *self.part(), *(["@", *self.part()] if self.random.random() < 0.3 else [])])


def module_text(random, declarations):
    """The text of declarations, each a list of tokens."""
    return "".join(texts.laid_out(random, tokens, "\n ") + random.choice(["\n", "\n", "\n", "\n\n", " -- more\n", "\n-- a line\n"])
                   for tokens in declarations)


def any_module(random):
    """Words of `show`, or of `check`, and a module by the grammar, often with a fault in its text."""
    text = module_text(random, [Text(random, 12).declaration() for _ in range(random.randint(0, 5))])
    if random.random() < 0.4:
        text += "main : Int\nmain = 5\n"
    for _ in range(random.choice([0, 0, 0, 1, 1, 2])):
        text = texts.disturbed(random, text)
    data = text.encode()
    return [random.choice(["show", "show", "check"])], texts.damaged(random, data) if random.random() < 0.1 else data
