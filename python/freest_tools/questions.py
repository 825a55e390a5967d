"""What can be found of a module by questions of `check`: all its faults, and the type that a variable has at a place.

Each fault is one that `check` answers of the same module with other declarations moved aside, so that they don't come
first. An equation `f x = e` is moved aside by `f = f`, which has every type of f. A signature or a type that is refused
is taken out, and what speaks of it is moved aside too: of that nothing is said until it is mended.

Where `(x ())` stands in place of the variable x, the program answers `not a function T`, with its type, and where that
is a function, `not a pair T` for `(let (a, b) = x in ())`.
"""
import collections
import re
import time

from . import program, source

MOST_FAULTS = 30
SECONDS = 10  # of the clock, for all questions about one text together
PLACED = re.compile(r"(refused|undecided|limit) (\d+):(\d+) (.*)\n")
PROBES = (("(", " ())", "not a function "), ("(let (a, b) = ", " in ())", "not a pair "))

# `kind` is "refused", "undecided" or "limit", and `phrase` what stands behind the place; where the kind is "stopped"
# there is no answer, and the phrase says why. `offset` is the place in characters.
Fault = collections.namedtuple("Fault", "kind phrase line column offset")
# The name from `start` to `end`, which are offsets, has this type there.
Typed = collections.namedtuple("Typed", "name type start end")


def said(fault):
    """Returns the words of a fault, as `freest_tools.refusals` takes them."""
    return fault.phrase if fault.kind in ("refused", "stopped") else f"{fault.kind} {fault.phrase}"


def placed(answer, text):
    """Returns the Fault that an answer to a text says, or None."""
    found = PLACED.match(answer)
    if not found:
        return None
    line, column = int(found[2]), int(found[3])
    return Fault(found[1], found[4], line, column, source.offset_of(text, line, column))


def faults(text, path=None, seconds=SECONDS):
    """Returns the faults of a module, the one that `check` answers first, and then those that it would answer with
    others moved aside."""
    module, found = Module(text, path, seconds), []
    while len(found) < MOST_FAULTS:
        fault, owner = module.fault()
        if not fault or fault.kind == "stopped" and found:
            break
        if fault not in found and not (fault.phrase == "no main" and "main" in module.gone):
            found.append(fault)
        if not module.move(owner, fault.phrase):
            break
    return found


def type_at(text, line, column, path=None, seconds=SECONDS):
    """Returns the Typed name at a place, or None where there is none or its type can't be found. A name has the type of
    its use there, before it; a name that is bound there, the type with which it is bound; and a global that of its
    signature."""
    offset = source.offset_of(text, line, column)
    name = source.token_at(text, offset)
    if not name or name.kind != "lower":
        return None
    module = Module(text, path, seconds)
    here = max((at for at, part in enumerate(module.parts) if part.start <= name.start), default=None)
    if module.parts[here].kind == "equation":
        at, front, behind = where_to_ask(text, module.parts[here], name)
        for one, two, words in PROBES:
            found = asked(module, here, text, at, (front + one, two + behind), name.text) if at is not None else ""
            if found.startswith(words):
                return Typed(name.text, found[len(words) :], name.start, name.end)
    signature = module.signature(name.text)
    found = signature and source.type_of(signature)
    return Typed(name.text, found, name.start, name.end) if found else None


def asked(module, here, text, at, around, name):
    """Returns the phrase at the name in the middle of a probe, where it is refused, else nothing. The probe stands from
    `at` on."""
    front, behind = around
    start, end = at
    probe = text[:start] + front + name + behind + text[end:]
    place = source.place_of(probe, start + len(front))
    part = module.parts[here]
    module.alone(here, probe[part.start : part.start + len(part.text) + len(probe) - len(text)])
    for _ in range(MOST_FAULTS):
        fault, owner = module.fault()
        if not fault or fault.kind == "stopped":
            return ""
        if (fault.line, fault.column) == place:
            return fault.phrase
        if owner == here or not module.move(owner, fault.phrase) or module.states[here] != "here":
            return ""
    return ""


def where_to_ask(text, part, name):
    """Returns where a probe of this name in the equation stands: the offsets between which it is put, and what stands
    around it.

    For a use that is in its place; for a name that is bound there, at the front of the term in which it is in scope."""
    found = [
        token._replace(start=token.start + part.start, end=token.end + part.start) for token in source.tokens(part.text)
    ]
    at = next(index for index, token in enumerate(found) if token.start == name.start)
    begin = scope_of([token.text for token in found], [token.kind for token in found], at)
    if begin is None:
        return (name.start, name.end), "", ""
    if begin >= len(found):
        return None, "", ""
    return (found[begin].start, found[begin].start), "", "; "


def scope_of(texts, kinds, at):
    """Returns the index of the token with which the scope begins of the name at an index, where it is bound there; or
    None."""

    def behind(*words):
        return next((index + 1 for index in range(at, len(texts)) if texts[index] in words), len(texts))

    equals = texts.index("=") if "=" in texts else len(texts)
    if at < equals:
        return equals + 1 if at else None
    if texts[at - 1] == "\\":
        return behind("->")
    if texts[at - 1] == "let" or texts[at - 2 : at] == ["let", "("] or texts[at - 4 : at - 2] == ["let", "("] and texts[at + 1] == ")":
        return behind_let(texts, at)
    first, last = at, at
    while first and kinds[first] == "lower":
        first -= 1
    while last < len(kinds) and kinds[last] == "lower":
        last += 1
    if kinds[first] == "upper" and texts[first - 1] in ("{", ",") and texts[last : last + 1] == ["->"]:
        return last + 1
    return None


def behind_let(texts, at):
    """Returns the index of the token behind the `in` of the `let` that binds the name at an index."""
    depth = 1
    for index in range(at, len(texts)):
        depth += {"let": 1, "in": -1}.get(texts[index], 0)
        if depth == 0:
            return index + 1
    return len(texts)


class Module:
    """A module, of which some declarations are moved aside or out. What is moved keeps its lines, so that all other
    places stay.

    `states` has "here", "aside" or "out" for each of `parts`, the declarations, and `texts` what stands for each that
    is "here"."""

    def __init__(self, text, path=None, seconds=SECONDS):
        self.text, self.path, self.end = text, path, time.monotonic() + seconds
        self.parts = source.declarations(text)
        self.front = text[: self.parts[0].start] if self.parts else text
        self.texts = [part.text for part in self.parts]
        self.states = ["here"] * len(self.parts)
        self.gone, self.added = set(), []

    def signature(self, name):
        """Returns the signature of a name that stands in the module, or None."""
        signatures = (it for it, state in zip(self.parts, self.states) if it.kind == "signature" and state == "here")
        return next((it for it in signatures if it.name == name), None)

    def itself(self, name):
        """Returns an equation that has the type of a global, whatever that is."""
        signature = self.signature(name)
        return " ".join([name, "=", name, *(f"@{it}" for it in source.variables(signature))]) if signature else ""

    def now(self):
        """Returns the text of the module as it is now."""
        texts = [
            text if state == "here" else (
                self.itself(part.name) if state == "aside" else ""
            ) + "\n" * part.text.count("\n")
            for part, text, state in zip(self.parts, self.texts, self.states)
        ]
        return self.front + "".join(texts) + "".join(f"\n{it}" for it in self.added)

    def alone(self, here, text):
        """Puts a text in place of a declaration, and moves all other equations aside."""
        self.texts[here] = text
        for index, part in enumerate(self.parts):
            if part.kind == "equation" and index != here and self.states[index] == "here" and self.signature(part.name):
                self.states[index] = "aside"

    def fault(self):
        """Returns the first fault of what is here, or None, and the index of its declaration, or None."""
        now = self.now()
        answer = program.call(["check"], now, path=self.path, seconds=max(0.1, self.end - time.monotonic()))
        found = placed(answer.out, self.text)
        if found:
            return found, self.owner(found.offset, found.phrase)
        if answer.out == "accepted\n":
            return None, None
        why = f"no answer: {answer.stopped}" if answer.stopped else answer.out.strip() or f"no answer: status {answer.status}"
        return Fault("limit" if answer.out == "limit length\n" else "stopped", why.replace("limit ", ""), 1, 1, 0), None

    def owner(self, offset, phrase):
        """Returns the index of the declaration that has a fault. Where one ends too soon, its fault is at the next one,
        or at the end."""
        owner = max((index for index, part in enumerate(self.parts) if part.start <= offset), default=None)
        if phrase == "syntax" and owner and self.parts[owner].start == offset:
            above = max((index for index in range(owner) if self.states[index] != "out"), default=owner)
            answer = program.call(
                ["show"], self.texts[above], path=self.path, seconds=max(0.1, self.end - time.monotonic())
            )
            return above if answer.out.endswith(" syntax\n") else owner
        return owner

    def move(self, index, phrase):
        """Moves a declaration with this fault aside, or out where that isn't enough. Returns whether there was
        something to do."""
        if phrase == "no main":
            return self.add("main : ()\nmain = ()")
        if index is None or self.states[index] == "out":
            return False
        part = self.parts[index]
        if part.kind == "signature" and phrase == f"unbound {part.name}" and self.add(self.itself(part.name)):
            return True
        if part.kind == "equation" and self.states[index] == "here" and self.signature(part.name):
            self.states[index] = "aside"
        else:
            self.take_out(index)
        return True

    def add(self, text):
        """Adds a declaration behind all others, but not twice. Returns whether it is new."""
        new = text not in self.added
        self.added += [text] * new
        return new

    def take_out(self, index):
        """Takes a declaration out, and moves aside, or takes out, what speaks of a name that isn't declared any
        more."""
        part = self.parts[index]
        self.states[index] = "out"
        twins = [it for it, state in zip(self.parts, self.states) if state != "out" and (it.kind, it.name) == (part.kind, part.name)]
        names = {part.name, *source.constructors(part)} - {None, *self.gone} if not twins else set()
        self.gone |= names
        for other, it in enumerate(self.parts):
            if names and self.states[other] == "here" and names & {token.text for token in source.tokens(it.text)}:
                if it.kind == "equation" and it.name not in self.gone and self.signature(it.name):
                    self.states[other] = "aside"
                else:
                    self.take_out(other)
