"""Session types as diagrams of states: reads types, finds what is left of them after each label, and has it checked.

A type is read as a word: a tuple of parts, of which each begins where the one before is done. `Skip` is the word without
parts. What is left of a type, a residual, is a word too, so the states of a diagram are words. A part that comes back to
itself with something behind it, as `x` does in `rec x. +{Leaf: Skip, Node: x;!Int;x}`, leads to ever longer words. So it
has a diagram of its own, and where it stands in front of something there is a state that calls this diagram: once that
one has come to its end, the next state follows.

Nothing here is proved. `faults` asks the program about each state: see there.
"""
import re

# What fits the program: the nodes of a type and the nesting of its text.
MOST_NODES, MOST_NESTED = 4096, 200
MOST_STATES = 2000
TOKEN = re.compile(r"--[^\n]*|[A-Za-z_\x80-\U0010ffff][\w'\x80-\U0010ffff]*|[0-9]+|->|[^ \t\r\n]", re.ASCII)
BASES = ("Int", "Bool", "Char")


class Refused(ValueError):
    """What was read has no diagram; its text is a line that says why."""


class Part:
    """A part of a type. Two parts are equal where they are the same tree, whatever their variables are called.

    | form | value | words |
    |---|---|---|
    | "message" | its label, such as `!Int` | |
    | "ending" | `Close` or `Wait` | |
    | "variable" | the name, of a `forall` | |
    | "choice" | the labels, such as `+Leaf`, in byte order | the branches, in this order |
    | "rec" | | the body |
    | "back" | how many `rec`s stand between this variable of a `rec` and its own | |
    """

    def __init__(self, form, value=None, words=(), name=None):
        self.form, self.value, self.words, self.name = form, value, words, name
        self.key = form, value, words
        self.hash = hash(self.key)
        inner = [part for word in words for part in word]
        self.ends = any(all(part.ends for part in word) for word in words) if words else form in ("message", "variable")
        self.open = value + 1 if form == "back" else max((part.open for part in inner), default=0) - (form == "rec")
        self.nodes = 1 + sum(nodes(word) + (form == "choice") for word in words)
        self.nested = 1 + max(map(nested, words), default=0)
        self.once = None

    def __hash__(self):
        return self.hash

    def __eq__(self, other):
        return self is other or self.hash == other.hash and self.key == other.key

    def unfolding(self):
        """Returns the body of a recursion that is closed, with the recursion in place of its variable."""
        if self.once is None:
            self.once = filled(self.words[0], self)
        return self.once


def nodes(word):
    """Returns how many nodes the program counts in a word."""
    return sum(part.nodes for part in word) + max(len(word) - 1, 0) + (not word)


def nested(word):
    """Returns how deep the text of a word is nested."""
    return max((place + part.nested for place, part in enumerate(word)), default=1)


def filled(word, part, depth=0):
    """Returns a word with this part in place of the variable of the `rec` that is so many levels further out than its own."""
    found = []
    for it in word:
        if it.open <= depth:
            found.append(it)
        elif it.form == "back":
            found.append(part)
        else:
            words = tuple(filled(inner, part, depth + (it.form == "rec")) for inner in it.words)
            found.append(Part(it.form, it.value, words, it.name))
    return tuple(found)


# Reading.


def tokens(text):
    """Returns the tokens of a text without its comments, each with its offset."""
    return [(it[0], it.start()) for it in TOKEN.finditer(text) if not it[0].startswith("--")]


class Reader:
    """Reads one type. What the program has read before is taken for granted: the syntax, and that each name stands for something.
    `aliases` has the texts of aliases; `names` gets each recursion that an alias stands for, with its name; and of parts that are
    equal the first one, which `parts` has, is taken each time."""

    def __init__(self, text, variables=(), aliases=None, names=None, parts=None):
        self.left = [it for it, _ in tokens(text)][::-1]
        self.variables, self.binders, self.aliases = variables, [], aliases or {}
        self.names, self.parts = {} if names is None else names, {} if parts is None else parts

    def part(self, *words):
        part = Part(*words)
        return (self.parts.setdefault(part, part),)

    def take(self, *wanted):
        if not self.left or wanted and self.left[-1] not in wanted:
            raise Refused("it is no session type")
        return self.left.pop()

    def next_is(self, token):
        return self.left[-1:] == [token]

    def whole(self):
        word = self.word()
        if self.left:
            raise Refused("it is no session type")
        return word

    def word(self):
        found = ()
        while True:
            if self.next_is("rec"):
                return found + self.recursion()
            found += self.atom()
            if not self.next_is(";"):
                return found
            self.take()

    def recursion(self):
        self.take()
        name = self.take()
        self.take(".")
        self.binders.append(name)
        body = self.word()
        self.binders.pop()
        # (a recursion that does nothing is done, as `Skip` is)
        return self.part("rec", None, (body,), name) if body else ()

    def atom(self):
        token = self.take()
        if token == "(":
            word = self.word()
            self.take(")")
            return word
        if token == "Skip":
            return ()
        if token in ("Close", "Wait"):
            return self.part("ending", token)
        if token in "!?":
            base = self.take("(", *BASES)
            return self.part("message", token + base + (self.take(")") if base == "(" else ""))
        if token in "+&":
            return self.choice(token)
        return self.named(token)

    def choice(self, sign):
        branches, separator = [], self.take("{")
        while separator != "}":
            label = sign + self.take()
            self.take(":")
            branches.append((label, self.word()))
            separator = self.take(",", "}")
        branches.sort(key=lambda it: it[0].encode())
        return self.part("choice", tuple(label for label, _ in branches), tuple(word for _, word in branches))

    def named(self, name):
        if name in self.binders:
            return self.part("back", self.binders[::-1].index(name))
        if name in self.variables:
            return self.part("variable", name)
        if name not in self.aliases:
            raise Refused("it is no session type")
        word = Reader(self.aliases[name], (), self.aliases, self.names, self.parts).whole()
        if len(word) == 1 and word[0].form == "rec":
            self.names.setdefault(word[0], name)
        return word


def question(text):
    """Returns of a question `T ~ U`, or of a type alone, the `forall` in front, its variables and the texts of the types."""
    found, begin, variables = tokens(text), 0, []
    if found and found[0][0] == "forall":
        begin = next((at + 1 for it, at in found if it == "."), len(text))
        front = [it for it, at in found if at < begin]
        variables = [name for name, behind in zip(front, front[1:]) if behind == ":"]
    signs = [begin - 1, *(at for it, at in found if it == "~" and at >= begin), len(text)]
    return text[:begin], variables, [text[one + 1 : two] for one, two in zip(signs, signs[1:])]


# Writing.


def text_of(word, taken=()):
    """Returns the text of a word. No `rec` in it gets a name of those that are taken, of which the last are around it."""
    texts = [part_text(part, taken) for part in word]
    for place, part in enumerate(word[:-1]):
        if part.form == "rec":
            texts[place] = f"({texts[place]})"
    return ";".join(texts) or "Skip"


def part_text(part, taken):
    if part.form == "rec":
        name = unlike(part.name, taken)
        return f"rec {name}. {text_of(part.words[0], (*taken, name))}"
    if part.form == "choice":
        branches = (f"{label[1:]}: {text_of(word, taken)}" for label, word in zip(part.value, part.words))
        return f"{part.value[0][0]}{{{', '.join(branches)}}}"
    return taken[-1 - part.value] if part.form == "back" else part.value


def unlike(name, others):
    while name in others:
        name += "'"
    return name


def short_text(word, names):
    """Returns the text of a word with the names of its `rec`s, and with dots for what is in its choices."""
    return ";".join(f"{it.value[0][0]}{{..}}" if it.form == "choice" else names.get(it, it.value) for it in word) or "Skip"


# Residuals.


def cut(word):
    """Returns the word without what is never reached, behind a part that never ends."""
    for place, part in enumerate(word):
        if not part.ends:
            return word[: place + 1]
    return word


def moves(word):
    """Returns the labels by which a word moves, each with what is left; that is None where the whole protocol is closed."""
    head, rest = word[0], word[1:]
    if head.form == "rec":
        return moves(head.unfolding() + rest)
    if head.form == "choice":
        return [(label, cut(branch + rest)) for label, branch in zip(head.value, head.words)]
    return [(head.value, None if head.form == "ending" else cut(rest))]


def leads_to(part):
    """Returns the choices and recursions that a part leads to, each with whether something stands behind it."""
    words = [part.unfolding()] if part.form == "rec" else part.words
    return [(it, place + 1 < len(word)) for word in map(cut, words) for place, it in enumerate(word) if it.words]


def called(word):
    """Returns the recursions in a word that come back to themselves with something behind them."""
    below, left = {}, [it for it in word if it.words]
    while left:
        part = left.pop()
        if part not in below:
            below[part] = leads_to(part)
            left += [it for it, _ in below[part]]
        if len(below) > MOST_STATES:
            raise Refused(f"it has over {MOST_STATES} parts")
    reached = {part: reach(part, below) for part in below}
    turns = [(one, two) for one in below for two, behind in below[one] if behind and one in reached[two]]
    return {it for one, two in turns for it in reached[two] if it.form == "rec" and one in reached[it]}


def reach(part, below):
    found, left = {part}, [part]
    while left:
        for it, _ in below[left.pop()]:
            if it not in found:
                found.add(it)
                left.append(it)
    return found


class State:
    """A state of a diagram: what is left, None where the protocol was closed; its edges, pairs of a label and the number
    of a state of this diagram; and where it calls a diagram, the number of that one, and an edge without a label to what
    follows."""

    def __init__(self, word):
        self.word, self.edges, self.calls = word, [], None
        if word and (nodes(word) > MOST_NODES or nested(word) > MOST_NESTED):
            raise Refused("what is left of it after some labels is over the limits of the language")


class Protocol:
    """The diagrams of a type, first that of the whole. Each is a list of states, of which the first one is its beginning."""

    def __init__(self, text, variables=(), aliases=None):
        reader = Reader(text, variables, aliases)
        word = reader.whole()
        self.text, self.variables, self.names = text, tuple(variables), reader.names
        self.diagrams = []
        self.called = called(cut(word))
        entries = [cut(word)]
        for entry in entries:
            self.diagrams.append(self.states(entry, entries))
        for part in (it for diagram in self.diagrams for state in diagram for it in state.word or ()):
            self.give_name(part)

    def states(self, entry, entries):
        """Returns the states of the diagram of a word; the words of the diagrams that it calls come to the entries."""
        numbers, found = {entry: 0}, [State(entry)]
        for state in found:
            if not state.word:
                continue
            callee = state.word[:1]
            if callee[0] in self.called and not state.word == entry == callee:
                if callee not in entries:
                    entries.append(callee)
                state.calls, targets = entries.index(callee), [(None, cut(state.word[1:]))]
            else:
                targets = moves(state.word)
            for label, word in targets:
                if word not in numbers:
                    numbers[word] = len(found)
                    found.append(State(word))
                state.edges.append((label, numbers[word]))
            if len(found) + sum(map(len, self.diagrams)) > MOST_STATES:
                raise Refused(f"it has over {MOST_STATES} states")
        return found

    def give_name(self, part):
        if part.form == "rec" and part not in self.names:
            self.names[part] = unlike(part.name, {*self.names.values(), *self.variables})

    def full_text(self, state):
        return "closed" if state.word is None else text_of(state.word, self.variables)

    def short_text(self, state):
        return "closed" if state.word is None else short_text(state.word, self.names)

    def name(self, number):
        """Returns the name of a diagram, or None for that of a type without one."""
        word = self.diagrams[number][0].word
        return self.names.get(word[0]) if len(word) == 1 else None

    def drawn_text(self, diagram, state):
        """Returns the type of a state as its edges say, one step of it; or None where no type has such edges."""
        texts = [(label, self.full_text(diagram[target])) for label, target in state.edges]
        if state.calls is not None:
            return f"({self.full_text(self.diagrams[state.calls][0])});{texts[0][1]}"
        signs = {label[0] for label, _ in texts}
        if signs in ({"+"}, {"&"}):
            return f"{signs.pop()}{{{', '.join(f'{label[1:]}: {text}' for label, text in texts)}}}"
        if len(texts) > 1:
            return None
        if not texts:
            return "Skip"
        label, text = texts[0]
        return label if text == "closed" else f"{label};{text}"


# Asking the program.


def said(program, words, text):
    """Returns the first line that the program writes, or that it gives no answer."""
    result = program.call(words, text)
    return result.out.split("\n")[0] or f"no answer, {result.stopped or f'status {result.status}'}"


def aliases_of(name, module, program):
    """Returns the texts of an alias of a module and of those that it leads to, by their names, and a module that declares
    these, with a data type for each name of one."""
    result = program.call(["show"], module)
    if result.status:
        raise Refused(said(program, ["show"], module))
    declared = [line.split(" = ", 1) for line in result.out.split("\n") if line.startswith(("type ", "data "))]
    texts = {front.split()[1]: text for front, text in declared if front.startswith("type ")}
    if name not in texts:
        raise Refused(f"there is no alias {name}, but {', '.join(texts) or 'none at all'}")
    found, left = {}, [name]
    while left:
        it = left.pop()
        if it not in found:
            found[it] = texts[it]
            words = [word for word, _ in tokens(texts[it])]
            left += [word for word, behind in zip(words, [*words[1:], ""]) if word in texts and behind != ":"]
    kept = [" = ".join(it) for it in declared if it[0].startswith("type ") and it[0].split()[1] in found]
    kept += [f"{front} = {front.split()[1]}" for front, _ in declared if front.startswith("data ")]
    return found, "\n".join([*kept, "main : Int", "main = 5", ""])


def faults(protocol, front, program, entry_holds=None):
    """Returns what isn't confirmed of the diagrams: the number of a diagram, that of a state, and what the program says.

    It asks `equiv` whether the text that was read is equivalent to the residual of the first state (`entry_holds` asks
    this of an alias), and for each state whether its residual is equivalent to the type that its edges draw: their choice
    or message, `Close`, `Wait` or variable, and behind each label the residual of the state to which the edge leads; for
    a call the residual of the first state of the diagram that is called, and then that of the next state; and `Skip`
    where no edge leaves. And no diagram that is called may begin with a call. So, label by label, what is drawn performs
    the traces of the text that was read and no others. That a picture shows these diagrams isn't checked."""

    def ask(left, right):
        return said(program, ["equiv"], f"{front}{left}\n~\n{right}")

    def answers():
        first = protocol.full_text(protocol.diagrams[0][0])
        yield 0, 0, entry_holds(first) if entry_holds else ask(protocol.text, first)
        for number, diagram in enumerate(protocol.diagrams):
            if number and diagram[0].calls is not None:
                yield number, 0, "it calls a diagram before any label"
            for place, state in enumerate(diagram):
                if state.word is not None:
                    drawn = protocol.drawn_text(diagram, state)
                    yield number, place, ask(protocol.full_text(state), drawn) if drawn else "no type has these edges"

    return [it for it in answers() if it[2] != "yes"]


def walk(protocol, trace):
    """Follows a trace as far as it goes. Returns the edges that it takes, each by the numbers of the diagram, the state and
    the edge, with the number of the step, None behind a call; and where it ends: the calls that it is in from outside
    inwards, and the last state."""
    stack, taken = [(0, 0)], []

    def settle():
        """Goes into each diagram that is called here, and behind the call of each that has come to its end."""
        while True:
            number, place = stack[-1]
            state = protocol.diagrams[number][place]
            if state.calls is not None:
                stack.append((state.calls, 0))
            elif state.word == () and len(stack) > 1:
                stack.pop()
                number, place = stack.pop()
                taken.append((number, place, 0, None))
                stack.append((number, protocol.diagrams[number][place].edges[0][1]))
            else:
                return

    for step, label in enumerate(trace, 1):
        settle()
        number, place = stack.pop()
        edges = protocol.diagrams[number][place].edges
        nth = next((nth for nth, (it, _) in enumerate(edges) if it == label), None)
        if nth is None:
            return taken, [*stack, (number, place)]
        taken.append((number, place, nth, step))
        stack.append((number, edges[nth][1]))
    return taken, stack
