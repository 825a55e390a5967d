"""Whether a module is well typed (docs/LANGUAGE.md, Checking a module; docs/SEMANTICS.md, Derivations).

`infer` gives the plain type of a term, by the row of its form, or the first fault from left to right. A context is threaded
through the parts, from which each linear variable that is used is taken.
"""
from .equivalence import compare
from .faults import Fault
from .kinds import kind_of, need_below
from .steps import dual, labels, step
from .texts import ATOM, trace_text, type_text
from .types import BOOL, CHAR, INT, UNIT, instance, make, sized

LITERALS = {"int": INT, "bool": BOOL, "char": CHAR, "unit": UNIT}
ARITHMETIC, LOGIC = ("+", "-", "*"), ("&&", "||")


class Context:
    """`Scope`: the variables that are entered and not left, which linear ones are still there, and where the open body begins."""

    def __init__(self):
        self.variables, self.there, self.body = [], set(), 0

    def enter(self, binder, t, is_linear):
        """`entered`"""
        if is_linear:
            self.there.add(len(self.variables))
        self.variables.append((binder, t, is_linear))

    def take(self, k, at):
        """`ShowsVariable`: the type of the k-th variable outward, which is taken if it is linear."""
        place = len(self.variables) - 1 - k
        binder, t, is_linear = self.variables[place]
        if is_linear:
            if place not in self.there:
                raise Fault(at, "used twice " + binder.name)
            if place < self.body:
                raise Fault(at, "captured " + binder.name)
            self.there.remove(place)
        return t

    def leave(self, count):
        """`ShowsUnused`: the innermost variables are left, of which the first one that is unused is told."""
        first = len(self.variables) - count
        for place in range(first, len(self.variables)):
            if place in self.there:
                binder = self.variables[place][0]
                raise Fault(binder.at, "unused " + binder.name)
        del self.variables[first:]


class Equation:
    """What the terms of an equation speak of (`Surroundings`, `Scene`), and the context in which they stand."""

    def __init__(self, module, signatures, kinds, budget):
        self.families, self.signatures, self.kinds, self.budget = module.families, signatures, kinds, budget
        self.context = Context()

    def infer(self, e):
        """`Row`: the type of a term, which is counted where it is found."""
        return sized(e.at, LITERALS[e.form] if e.form in LITERALS else getattr(self, e.form + "_")(e, *e.parts))

    def text(self, t, level=0):
        return type_text(t, self.families, level)

    def fault(self, at, phrase, t):
        return Fault(at, phrase + " " + self.text(t))

    def compared(self, at, found, wanted):
        """`compared`: the type found is equal to the one wanted, or `IsRefusal`."""
        verdict = compare(found, wanted, self.budget, at)
        if verdict.answer == "undecided":
            raise Fault(at, "%d %s ~ %s" % (self.budget, self.text(found), self.text(wanted)), "undecided")
        if verdict.answer != "yes":
            word = "" if verdict.trace is None else " word " + trace_text(verdict.trace, verdict.side)
            raise Fault(at, "type %s wanted %s%s" % (self.text(found), self.text(wanted), word))

    def check(self, e, wanted):
        """`At`: a part whose type is compared with the one that is wanted of it, directly behind it."""
        self.compared(e.at, self.infer(e), wanted)

    def enter(self, binder, t):
        self.context.enter(binder, sized(binder.at, t), self.is_linear(t))

    def is_linear(self, t):
        """`HasUse`: whether values of the type are used exactly once."""
        return kind_of(t, self.kinds)[0] == "1"

    def droppable(self, e):
        """`ShowsDropped`: the type of a part may be dropped."""
        t = self.infer(e)
        if self.is_linear(t):
            raise self.fault(e.at, "dropped", t)

    def under(self, binders, types, body, use="1"):
        """`IsTypedUnder`: the type of a term under these variables, which are parameters of a function with this use."""
        around = self.context.body
        self.begin(use)
        for binder, t in zip(binders, types):
            self.enter(binder, t)
        result = self.infer(body)
        self.context.leave(len(binders))
        self.context.body = around
        return result

    def begin(self, use):
        """`begun`: where the body of an unrestricted function begins, it can take no linear variable from outside."""
        if use == "*":
            self.context.body = len(self.context.variables)

    def local_(self, e):
        return self.context.take(e.value, e.at)

    def global_(self, e):
        """`ShowsUse`"""
        name, arguments = e.value
        kinds, signature = self.signatures[name]
        if len(arguments) != len(kinds):
            raise Fault(e.at, "type arguments %d wanted %d" % (len(arguments), len(kinds)))
        for argument, kind in zip(arguments, kinds):
            need_below(kind_of(argument.type, self.kinds), kind, argument.at)
        return instance(signature, [argument.type for argument in arguments])

    def pair_(self, e, first, second):
        return make("pair", None, self.infer(first), self.infer(second))

    def make_(self, e, *parts):
        """`Fields`"""
        number, name = e.value
        for part, field in zip(parts, dict(self.families[number].makers)[name]):
            self.check(part, field.type)
        return make("named", number)

    def lambda_(self, e, body):
        use, argument, binder = e.value
        return make("arrow", use, argument.type, self.under((binder,), (argument.type,), body, use))

    def apply_(self, e, f, argument):
        t = self.infer(f)
        if t.form != "arrow":
            raise self.fault(f.at, "not a function", t)
        self.check(argument, t.parts[0])
        return t.parts[1]

    def let_(self, e, value, body):
        return self.under(e.value, (self.infer(value),), body)

    def split_(self, e, value, body):
        t = self.infer(value)
        if t.form != "pair":
            raise self.fault(value.at, "not a pair", t)
        return self.under(e.value, t.parts, body)

    def if_(self, e, condition, *branches):
        self.check(condition, BOOL)
        return self.branches([(branch, (), ()) for branch in branches])

    def branches(self, bodies):
        """`FurtherArms`: all begin with the same context, use the same of it, and have the type of the first one."""
        before, first, after = set(self.context.there), None, None
        for body, binders, types in bodies:
            self.context.there = set(before)
            t = self.under(binders, types, body)
            if first is None:
                first, after = t, self.context.there
                continue
            if self.context.there != after:
                outermost = min(self.context.there ^ after)
                raise Fault(body.at, "branches " + self.context.variables[outermost][0].name)
            self.compared(body.at, t, first)
        return first

    def arms(self, e, t, fields):
        """`AreEachOnce`: the arms have these labels, each once; `fields` gives for each label the types that its arm binds."""
        if sorted(arm.label for arm in e.value) != sorted(fields):
            raise self.fault(e.at, "arms", t)
        return self.branches([(arm.body, arm.binders, fields[arm.label]) for arm in e.value])

    def case_(self, e, value):
        t = self.infer(value)
        if t.form != "named":
            raise self.fault(e.at, "arms", t)
        return self.arms(e, t, {name: [field.type for field in fields] for name, fields in self.families[t.value].makers})

    def match_(self, e, value):
        t = self.infer(value)
        offered = labels(t)
        if not offered or offered[0][0] != "&":
            raise self.fault(e.at, "no move & in", t)
        return self.arms(e, t, {label[1]: [step(t, label)] for label in offered})

    def operate_(self, e, left, right):
        """`Operates`"""
        if e.value in ARITHMETIC or e.value in LOGIC:
            operand = INT if e.value in ARITHMETIC else BOOL
            self.check(left, operand)
            self.check(right, operand)
            return operand
        t = self.infer(left)
        if t not in (INT, CHAR):
            self.compared(left.at, t, INT)
        self.check(right, t)
        return BOOL

    def not_(self, e, part):
        self.check(part, BOOL)
        return BOOL

    def new_(self, e):
        """`ShowsNew`"""
        t = e.value.type
        need_below(kind_of(t, ()), "1S", e.value.at)
        return make("pair", None, t, dual(t))

    def moved(self, e, t, label, move):
        """What is left of a type after a move that a term asks for."""
        left = step(t, label)
        if left is None:
            raise self.fault(e.at, "no move %s in" % move, t)
        return left

    def send_(self, e, value, end):
        """`ShowsSend`"""
        sent, t = self.infer(value), self.infer(end)
        return self.moved(e, t, ("!", sent.value) if sent.form == "plain" else None, "!" + self.text(sent, ATOM))

    def receive_(self, e, end):
        """`ShowsReceive`"""
        t = self.infer(end)
        received = [label for label in labels(t) if label[0] == "?"]
        left = self.moved(e, t, received[0] if received else None, "?")
        return make("pair", None, make("plain", received[0][1]), left)

    def select_(self, e, end):
        """`ShowsSelect`"""
        return self.moved(e, self.infer(end), ("+", e.value), "+" + e.value)

    def close_(self, e, end):
        move = e.form.capitalize()
        self.moved(e, self.infer(end), (move, ""), move)
        return UNIT

    wait_ = close_

    def fork_(self, e, part):
        self.droppable(part)
        return UNIT

    def then_(self, e, first, second):
        self.droppable(first)
        return self.infer(second)


def is_printable(t):
    """A base type, a data type, or a pair of printable types."""
    return t.form in ("plain", "named") or t.form == "pair" and all(map(is_printable, t.parts))


def check_printable(found, families):
    if not is_printable(found.type):
        raise Fault(found.at, "not printable " + type_text(found.type, families))


def check_equation(module, signatures, g, budget):
    """`IsEquationTyped`: under its parameters the body has the result's type; then the last parameter is left first."""
    if g.name == "main":
        if g.kinds:
            raise Fault(g.signature.at, "type arguments %d wanted 0" % len(g.kinds))
        check_printable(g.signature, module.families)
    equation, t = Equation(module, signatures, g.kinds, budget), g.signature.type
    for parameter in g.parameters:
        equation.begin(t.value)
        equation.enter(parameter, t.parts[0])
        t = t.parts[1]
    equation.check(g.body, t)
    for _ in g.parameters:
        equation.context.leave(1)


def check(module, budget):
    """`IsAccepted`, or the first fault: written types, fields, and the equations in order of text."""
    for found, kinds in module.written:
        kind_of(found.type, kinds, found.at)
    for family in module.families:
        for _, fields in family.makers:
            for field in fields:
                check_printable(field, module.families)
    signatures = {g.name: (g.kinds, g.signature.type) for g in module.globals}
    for g in module.globals:
        check_equation(module, signatures, g, budget)
