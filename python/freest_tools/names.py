"""The names of a module or a question: where each is declared or bound, and where it is used.

They are found in the tokens alone, without the program. Of a text that is no module they are found as far as it goes: a
token that doesn't fit is passed over, and what isn't closed ends with its declaration.
"""
import bisect
import collections

from . import source

DEEPEST = 200  # how many terms and types within one another are looked into
TYPE_ENDS = {"", ")", "}", ",", "=", "~", "|", "@", "\\"} | source.WORDS - set(
    "rec Skip Close Wait Int Bool Char".split()
)
TERM_ENDS = {"", ")", "}", ",", "in", "then", "else", "of", "with"}

# A name that stands from `start` to `end`. `binds` says that it is declared or bound there, or is a label in a type.
# `terms` and `types` are the Symbols of the variables in scope there, by their names.
Place = collections.namedtuple("Place", "start end symbol binds terms types")
# A `select`, a `match` or a `case`, as `word` says: what it looks at stands from `start` to `end`, and `places` has the
# Places of its label, its labels or its constructors.
Choice = collections.namedtuple("Choice", "word start end places")


class Unsure(ValueError):
    """A name that can't be changed for certain; its text is a line that says why."""


class Symbol:
    """What a name stands for: its `kind` is "global", "variable", "type variable", "type", "constructor" or "label".
    All labels with one name are one Symbol, and so are all names of one kind that stand for nothing."""

    def __init__(self, kind, name):
        self.kind, self.name, self.places = kind, name, []

    def binders(self):
        return [place for place in self.places if place.binds]


class Names:
    """The names of a text: `places` in their order, `choices`, and `symbols`, the Symbols that aren't variables."""

    def __init__(self, text, is_question=False):
        self.text, self.is_question, self.places, self.choices, self.symbols = text, is_question, [], [], {}
        if is_question:
            Reader(self, source.tokens(text), 0).question()
        else:
            variables = {}
            # (an equation has the type variables of its signature)
            for part in sorted(source.declarations(text), key=lambda it: it.kind == "equation"):
                Reader(self, source.tokens(part.text), part.start).declaration(part, variables)
        self.places.sort(key=lambda it: it.start)
        self.starts = [place.start for place in self.places]

    def symbol(self, kind, name):
        return self.symbols.setdefault((kind, name), Symbol(kind, name))

    def at(self, offset):
        """Returns the Place of the name at an offset, or that ends there; or None."""
        index = bisect.bisect_right(self.starts, offset) - 1
        return self.places[index] if index >= 0 and offset <= self.places[index].end else None

    def declared(self, start, end):
        """Returns the Places between two offsets at which something is declared for the whole text."""
        found = self.places[bisect.bisect_left(self.starts, start) : bisect.bisect_left(self.starts, end)]
        return [it for it in found if it.binds and it.symbol.kind in ("global", "type", "constructor")]

    def meanings(self):
        """Returns what each name stands for, in numbers that don't say how it is spelled."""
        numbers = {}
        return [(numbers.setdefault(it.symbol, len(numbers)), it.symbol.kind, it.binds) for it in self.places]

    def to_rename(self, offset):
        """Returns the Place of a name that may be changed, or raises Unsure."""
        place = self.at(offset)
        if not place:
            raise Unsure("there is no name here")
        symbol, binders = place.symbol, len(place.symbol.binders())
        if symbol.kind == "label":
            raise Unsure(f"labels aren't declared, so which {symbol.name} belong together isn't certain")
        if not binders:
            raise Unsure(f"{symbol.name} stands for nothing here")
        if binders > (2 if symbol.kind == "global" else 1):
            raise Unsure(f"{symbol.name} is declared more than once")
        return place

    def renamed(self, offset, new):
        """Returns the text with a new name for the one at an offset, wherever that is meant, or raises Unsure. Whether
        the text is a module, without which nothing is certain, isn't looked at."""
        symbol, text = self.to_rename(offset).symbol, self.text
        kind = "upper" if symbol.kind in ("type", "constructor") else "lower"
        if [(it.kind, it.text) for it in source.tokens(new)] != [(kind, new)]:
            raise Unsure(f"{new!r} isn't {'an upper' if kind == 'upper' else 'a lower'} name, as {symbol.name} is")
        for place in reversed(symbol.places):
            text = text[: place.start] + new + text[place.end :]
        if Names(text, self.is_question).meanings() != self.meanings():
            raise Unsure(f"{new} means something else where {symbol.name} stands, or would do so elsewhere")
        return text


class Reader:
    """Reads the tokens of one declaration, or of a question, which begins at the offset `start` of the text."""

    def __init__(self, names, tokens, start):
        self.names, self.start, self.index, self.depth = names, start, 0, 0
        self.tokens = [it._replace(start=it.start + start, end=it.end + start) for it in tokens]

    def word(self):
        """Returns the text of the next token, or nothing at the end."""
        return self.tokens[self.index].text if self.index < len(self.tokens) else ""

    def next_is(self, *kinds):
        return self.index < len(self.tokens) and self.tokens[self.index].kind in kinds

    def take(self, *wanted):
        """Goes behind the next token where it is one of these, and returns whether it is."""
        found = self.word() in wanted
        self.index += found
        return found

    def place(self, symbol, terms, types, binds=False):
        """Takes the next token as a name of this Symbol."""
        token = self.tokens[self.index]
        self.index += 1
        found = Place(token.start, token.end, symbol, binds, terms, types)
        symbol.places.append(found)
        self.names.places.append(found)
        return found

    def named(self, kind, terms, types, binds=False):
        """Takes a name that isn't a variable, where one stands, and returns its Place in a list."""
        return [
            self.place(self.names.symbol(kind, self.word()), terms, types, binds)
        ] if self.next_is("lower", "upper") else []

    def bound(self, kind, terms, types):
        """Takes a variable that is bound here, where one stands, and returns its Symbol by its name."""
        if not self.next_is("lower"):
            return {}
        symbol = Symbol(kind, self.word())
        self.place(symbol, terms, types, True)
        return {symbol.name: symbol}

    # Declarations.

    def question(self):
        types = self.forall()
        while self.word():
            self.type(types)
            self.index += 1

    def declaration(self, part, variables):
        """Reads a declaration. `variables` has those of each `forall`, by the name of its global."""
        is_type, terms, types = part.kind in ("data", "type"), {}, {}
        self.index += is_type
        if part.kind != "other":
            self.named("type" if is_type else "global", {}, {}, True)
        if part.kind == "signature" and self.take(":"):
            types = variables.setdefault(part.name, self.forall())
        if part.kind == "equation":
            types = variables.get(part.name, {})
            while self.next_is("lower"):
                terms = {**terms, **self.bound("variable", terms, types)}
        while self.word():
            if part.kind == "data" and self.take("=", "|"):
                self.named("constructor", {}, {}, True)
                self.type({})
                continue
            if is_type or part.kind == "signature":
                self.type(types)
            else:
                terms = self.term(terms, types)
            self.index += 1

    def forall(self):
        types = {}
        if self.take("forall"):
            while self.word() not in TYPE_ENDS | {"."} or self.take(","):
                types.update(self.bound("type variable", {}, types))
                while self.word() not in TYPE_ENDS | {"."}:
                    self.index += 1
        self.take(".")
        return types

    # Types.

    def type(self, types, ends=frozenset()):
        """Reads a type up to a token that ends it."""
        self.depth += 1
        while self.word() not in TYPE_ENDS and self.word() not in ends:
            if self.depth > DEEPEST:
                self.index += 1
            elif self.take("rec"):
                types = {**types, **self.bound("type variable", {}, types)}
                self.take(".")
            else:
                self.type_atom(types)
        self.depth -= 1

    def type_atom(self, types):
        while self.take("!", "?"):
            pass
        word = self.word()
        if self.next_is("lower"):
            self.place(types.get(word) or self.names.symbol("type variable", word), {}, types)
        elif self.next_is("upper"):
            self.named("type", {}, types)
        elif self.take("("):
            self.type(types)
            while self.take(","):
                self.type(types)
            self.take(")")
        elif self.take("+", "&"):
            goes_on = self.take("{")
            while goes_on:
                self.named("label", {}, types, True)
                self.take(":")
                self.type(types)
                goes_on = self.take(",")
            self.take("}")
        elif word not in TYPE_ENDS:
            self.index += 1

    # Terms.

    def term(self, terms, types):
        """Reads a term up to a token that ends it, and returns the variables that are in scope there."""
        self.depth += 1
        while self.word() not in TERM_ENDS:
            if self.depth > DEEPEST:
                self.index += 1
            else:
                terms = self.part(terms, types)
        self.depth -= 1
        return terms

    def part(self, terms, types):
        """Reads a part of a term, and returns the variables that are in scope behind it."""
        word = self.word()
        if self.next_is("lower"):
            is_variable = word in terms and [it.text for it in self.tokens[self.index + 1 : self.index + 2]] != ["@"]
            self.place(terms[word] if is_variable else self.names.symbol("global", word), terms, types)
        elif self.next_is("upper"):
            self.named("constructor", terms, types)
        elif self.take("let", "\\"):
            return self.binding(word, terms, types)
        elif self.take("case", "match"):
            self.arms(word, terms, types)
        elif self.take("if"):
            for behind in ("then", "else"):
                self.term(terms, types)
                self.take(behind)
        elif self.take("("):
            self.term(terms, types)
            while self.take(","):
                self.term(terms, types)
            self.take(")")
        elif self.take("select"):
            places, begin = self.named("label", terms, types), self.index
            # (it looks at an atom)
            if self.next_is("lower", "upper") or self.word() == "(":
                self.part(terms, types)
            self.choice("select", begin, places)
        elif self.take("new", "@"):
            self.type_atom(types if word == "@" else {})
        else:
            self.index += 1
        return terms

    def binding(self, word, terms, types):
        """Reads the rest of a `let` up to what follows it, or of a function up to its body."""
        self.take("(")
        found = self.bound("variable", terms, types)
        if word == "let" and self.take(","):
            found.update(self.bound("variable", {**terms, **found}, types))
        self.take(")")
        if self.take(":"):
            self.type(types, {"->"})
            self.take("->")
        elif self.take("="):
            self.term(terms, types)
            self.take("in")
        return {**terms, **found}

    def choice(self, word, begin, places):
        """Notes a Choice that looks at the tokens from an index up to here, or at nothing behind the token in front of
        them."""
        start = self.tokens[begin].start if begin < self.index else self.tokens[begin - 1].end
        self.names.choices.append(Choice(word, start, self.tokens[self.index - 1].end, places))

    def arms(self, word, terms, types):
        """Reads the rest of a `case` or a `match`."""
        begin, places = self.index, []
        self.term(terms, types)
        self.choice(word, begin, places)
        self.take("of", "with")
        goes_on = self.take("{")
        while goes_on:
            places += self.named("label" if word == "match" else "constructor", terms, types)
            found = {}
            while self.next_is("lower"):
                found.update(self.bound("variable", {**terms, **found}, types))
            self.take("->")
            self.term({**terms, **found}, types)
            goes_on = self.take(",")
        self.take("}")
