"""Names turned into numbers, and the faults of names (docs/LANGUAGE.md, Names; docs/SEMANTICS.md, Terms and modules).

Terms become `Node`s with the forms of `CoreTree`, in which a variable is the number of the binders between, and a type is a
`TypeAt`: its place and the type that it stands for.
"""
from collections import namedtuple

from .faults import MOST_NODES, Fault, too_large
from .modules import Alias, Arm, Data, Equation, Signature
from .reading import Node
from .types import SKIP, make, within

TypeAt = namedtuple("TypeAt", "at type")
Family = namedtuple("Family", "name makers")
Global = namedtuple("Global", "name at kinds signature parameters body")
Module = namedtuple("Module", "families globals written")
Asked = namedtuple("Asked", "kinds left right left_at right_at")
Scope = namedtuple("Scope", "recs variables")

NUMBERS = ("unbound", "twice", "arity", "alias loop", "type size", "no main")
NO_VARIABLES = Scope((), {})


class Faults:
    """`first_fault`: of the faults that are noted the one in the least place, at one place the one of the least number."""

    def __init__(self):
        self.noted = []

    def note(self, at, what, rest=""):
        self.noted.append((at, NUMBERS.index(what), rest))

    def tell(self):
        if self.noted:
            at, number, rest = min(self.noted, key=lambda fault: fault[:2])
            raise too_large(at) if NUMBERS[number] == "type size" else Fault(at, (NUMBERS[number] + " " + rest).strip())


class Types:
    """`type_of`: what written types stand for, where `declared` has the data types by number, None for an alias; and the aliases."""

    def __init__(self, faults, declared=(), aliases=()):
        self.faults, self.declared, self.aliases, self.types = faults, declared, aliases, {}

    def type_at(self, written, scope):
        """The type, or None where it leads to a loop of aliases; `type_faults` are noted."""
        t = self.type_of(written, scope)
        if t is not None and t.nodes > MOST_NODES:
            self.faults.note(written.at, "type size")
        return t

    def type_of(self, written, scope):
        form, value = written.form, written.value
        if form == "name":
            return self.standing(written, scope)
        inner = Scope((value, *scope.recs), scope.variables) if form == "rec" else scope
        parts = [self.type_of(part, inner) for part in written.parts]
        if None in parts:
            return None
        if form in ("select", "offer"):
            labels, parts = zip(*sorted(zip(value, parts), key=lambda branch: branch[0]))
            return make(form, labels, *parts)
        return make(form, None if form == "rec" else value, *parts)

    def standing(self, written, scope):
        """`standing`: the innermost `rec` of a name, or the variable, or what is declared; what isn't in scope counts as `Skip`."""
        name = written.value
        if name in scope.recs:
            return make("back", scope.recs.index(name))
        if name in scope.variables:
            return make("var", scope.variables[name])
        if name in self.declared:
            number = self.declared[name]
            return self.alias(name) if number is None else make("named", number)
        self.faults.note(written.at, "unbound", name)
        return SKIP


    def alias(self, name):
        """`StandsFor`: what an alias stands for, which is nothing for one that leads to a loop: it is asked for while it is open."""
        if name not in self.types:
            self.types[name] = None
            self.types[name] = self.type_of(self.aliases[name].type, NO_VARIABLES)
        return self.types[name]


def first_under(faults, named):
    """`first_under`: what is declared first under each name; a further one is `twice_declared`."""
    found = {}
    for name, declared in named:
        if name.name in found:
            faults.note(name.at, "twice", name.name)
        found.setdefault(name.name, declared)
    return found


def scope_of(binders, faults):
    """`variables_of`: the numbers of the variables of a `forall`."""
    return Scope((), first_under(faults, [(variable, k) for k, (variable, _) in enumerate(binders)]))


def resolve_question(question):
    """`question_faults`, or what the names in a question stand for."""
    faults = Faults()
    types, scope = Types(faults), scope_of(question.binders, faults)
    left, right = (types.type_at(written, scope) for written in (question.left, question.right))
    faults.tell()
    return Asked(tuple(kind for _, kind in question.binders), left, right, question.left.at, question.right.at)


def leads_back(name, graph):
    """Whether an alias leads back to itself."""
    seen, stack = set(), [name]
    while stack:
        for target in graph[stack.pop()] - seen:
            seen.add(target)
            stack.append(target)
    return name in seen


class Resolver:
    """`resolve`: what is declared first under each name, and then all declarations one after the other.

    `makers` has the number of the data type and of the fields of each constructor (`maker_entries`).
    """

    def __init__(self, declarations):
        self.declarations, self.faults, self.written = declarations, Faults(), []
        self.data = [d for d in declarations if isinstance(d, Data)]
        self.families = [Family(d.name.name, []) for d in self.data]
        self.signatures = self.first_of(Signature)
        self.equations = self.first_of(Equation)
        self.types = self.declared_types()
        self.makers = first_under(self.faults, [(maker.name, (number, len(maker.fields)))
                                                for number, d in enumerate(self.data) for maker in d.makers])
        self.note_loops()

    def first_of(self, *forms):
        return first_under(self.faults, [(d.name, d) for d in self.declarations if isinstance(d, forms)])

    def declared_types(self):
        """`type_declared`: the number of a data type, and None for an alias."""
        named = self.first_of(Data, Alias)
        numbers = {id(d): k for k, d in enumerate(self.data)}
        return Types(self.faults, {name: numbers.get(id(d)) for name, d in named.items()},
                     {name: d for name, d in named.items() if isinstance(d, Alias)})

    def note_loops(self):
        """The aliases that lead back to themselves; where all stand for something there are none."""
        aliases = self.types.aliases
        graph = {name: {part.value for part in within(d.type) if part.form == "name" and part.value in aliases}
                 for name, d in aliases.items()}
        if None in [self.types.alias(name) for name in aliases]:
            for name in filter(lambda name: leads_back(name, graph), aliases):
                self.faults.note(aliases[name].name.at, "alias loop", name)

    def type_at(self, written, scope, kinds):
        """A written type at its place, noted among the written ones over these kinds."""
        found = TypeAt(written.at, self.types.type_at(written, scope))
        self.written.append((found, kinds))
        return found

    def module(self):
        """`IsResolvedModule`, or the first of `module_faults`."""
        signed, families = {}, iter(self.families)
        for d in self.declarations:
            if isinstance(d, Data):
                self.fields(d, next(families))
            elif isinstance(d, Alias):
                self.type_at(d.type, NO_VARIABLES, ())
            elif isinstance(d, Signature):
                signed.setdefault(d.name.name, self.signature(d))
        equations = [d for d in self.declarations if isinstance(d, Equation)]
        found = [self.equation(d, *signed.get(d.name.name, (NO_VARIABLES, (), None))) for d in equations]
        if not self.faults.noted and "main" not in signed:
            self.faults.note(0, "no main")
        self.faults.tell()
        return Module(self.families, found, sorted(self.written, key=lambda entry: entry[0].at))

    def fields(self, d, family):
        for maker in d.makers:
            fields = [self.type_at(field, NO_VARIABLES, ()) for field in maker.fields]
            family.makers.append((maker.name.name, fields))

    def signature(self, d):
        """`signed`: the variables of a signature, their kinds and its type."""
        if d.name.name not in self.equations:
            self.faults.note(d.name.at, "unbound", d.name.name)
        scope, kinds = scope_of(d.binders, self.faults), tuple(kind for _, kind in d.binders)
        return scope, kinds, self.type_at(d.type, scope, kinds)

    def equation(self, d, scope, kinds, signature):
        """`equations_from`: the global of an equation, with the first signature of its name."""
        if signature is None:
            self.faults.note(d.name.at, "unbound", d.name.name)
        elif signature.type is not None:
            arrows, t = 0, signature.type
            while arrows < len(d.parameters) and t.form == "arrow":
                arrows, t = arrows + 1, t.parts[1]
            if arrows < len(d.parameters):
                self.faults.note(d.name.at, "arity", "%d wanted %d" % (len(d.parameters), arrows))
        body = Terms(self, scope, kinds).under(d.parameters, d.body)
        return Global(d.name.name, d.name.at, kinds, signature, d.parameters, body)


class Terms:
    """`core_term`: the terms of an equation, whose types have the variables in scope; `levels` are those of the variables by name."""

    def __init__(self, resolver, scope, kinds):
        self.resolver, self.scope, self.kinds, self.levels, self.count = resolver, scope, kinds, {}, 0

    def under(self, binders, e):
        """A term under some variables, of which later ones hide earlier ones."""
        for variable in binders:
            self.levels.setdefault(variable.name, []).append(self.count)
            self.count += 1
        result = self.term(e)
        for variable in binders:
            self.levels[variable.name].pop()
        self.count -= len(binders)
        return result

    def term(self, e):
        """`term_faults` are noted on the way."""
        special = getattr(self, e.form + "_", None)
        return special(e) if special else Node(e.at, e.form, e.value, self.terms(e.parts))

    def terms(self, parts):
        return tuple([self.term(part) for part in parts])

    def type_at(self, written):
        return self.resolver.type_at(written, self.scope, self.kinds)

    def name_(self, e):
        """`name_term`: the innermost variable with the name, or a global, which is always meant before `@`."""
        name, types = e.value
        arguments = tuple(self.type_at(t) for t in types)
        if not types and self.levels.get(name):
            return Node(e.at, "local", self.count - 1 - self.levels[name][-1], ())
        if name not in self.resolver.signatures and name not in self.resolver.equations:
            self.resolver.faults.note(e.at, "unbound", name)
        return Node(e.at, "global", (name, arguments), ())

    def make_(self, e):
        return Node(e.at, "make", self.maker(e.value, len(e.parts)), self.terms(e.parts))

    def maker(self, label, count):
        """`maker_faults`: the data type and the name of a constructor, which has as many parts as fields."""
        if label.name not in self.resolver.makers:
            self.resolver.faults.note(label.at, "unbound", label.name)
            return None
        number, fields = self.resolver.makers[label.name]
        if count != fields:
            self.resolver.faults.note(label.at, "arity", "%d wanted %d" % (count, fields))
        return number, label.name

    def lambda_(self, e):
        use, written, variable = e.value
        return Node(e.at, "lambda", (use, self.type_at(written), variable), (self.under((variable,), e.parts[0]),))

    def let_(self, e):
        return Node(e.at, e.form, e.value, (self.term(e.parts[0]), self.under(e.value, e.parts[1])))

    split_ = let_

    def new_(self, e):
        return Node(e.at, "new", self.resolver.type_at(e.value, NO_VARIABLES, ()), ())

    def case_(self, e):
        """`cases_faults`"""
        for arm in e.value:
            self.maker(arm.label, len(arm.binders))
        return self.match_(e)

    def match_(self, e):
        """`core_arms`"""
        value = self.terms(e.parts)
        return Node(e.at, e.form, tuple(Arm(a.label.name, a.binders, self.under(a.binders, a.body)) for a in e.value), value)
