"""Terms that use up ends of channels: what a well-typed program does with them, chosen at random."""
from trials import written
from trials.modules import Module, bound
from trials.written import BOOL, DONE, INT, call, closes, dual, is_linear, let, name, number

REST = ("name", "a")


def is_kept(item):
    """Whether this end is handed back in the end: its type goes on as the type variable."""
    return item[1][0] == "end" and item[1][1][-1:] == (REST,)


class Program(Module):
    """`live` are the linear variables: pairs of a name and a type, each to be used once. `around` are the others."""

    def use(self, live, goal, around, depth):
        """A term of the type `goal` in which each of `live` is used once."""
        self.room -= 1
        depth = depth if self.room > 0 else 0
        if not live:
            return self.new_channel(live, goal, around, depth) if depth > 1 and self.chance(0.5) else self.value(goal, around, min(depth, 3))
        if len(live) == 1 and live[0][1] == ("end", (REST,)):
            return self.handed_back(live[0], goal, around, depth)
        ready = [item for item in live if item[1] != ("end", (REST,))]
        item = self.random.choice(ready)
        others = [other for other in live if other != item]
        if item[1][0] == "1->":
            return self.called(item, others, goal, around, depth)
        if depth > 0 and self.chance(0.45):
            return self.detour(item, others, goal, around, depth - 1)
        if others and not is_kept(item) and (depth <= 0 or self.chance(0.15)):
            return self.left_to_helper(item, others, goal, around, depth)
        return self.step(name(item[0]), item[1][1], others, goal, around, depth)

    def handed_back(self, item, goal, around, depth):
        end = name(item[0])
        return end if goal[0] == "end" else written.pair(self.value(goal[1], around, min(depth, 2)), end)

    def bound_end(self, variable, moves, live, around):
        """What is live and what is around once a variable stands for an end of this type."""
        around = [item for item in around if item[0] != variable]
        if moves == ():
            return live, [*around, (variable, DONE)]
        return [*live, (variable, ("end", moves))], around

    def go_on(self, what, moves, others, goal, around, depth):
        """The rest, behind a move that gives this end: bound to a variable, or used where it stands."""
        if moves not in ((), (REST,)) and moves[0][0] in "!?" and self.chance(0.3):
            return self.step(what, moves, others, goal, around, depth)
        variable = self.local(others)
        live, around = self.bound_end(variable, moves, others, around)
        return let(variable, what, self.use(live, goal, around, depth))

    # The moves of a protocol.

    def step(self, end, moves, others, goal, around, depth):
        move, rest = moves[0], moves[1:]
        if move[0] == "!":
            return self.go_on(call("send", self.value(("base", move[1]), around, min(depth, 2)), end), rest, others, goal, around, depth)
        if move[0] == "?":
            variable = self.local(others)
            x = next(other for other in ("x", "y", "k") if other != variable and other not in dict(others))
            live, around = self.bound_end(variable, rest, others, bound(around, (x, ("base", move[1]))))
            return let("(%s, %s)" % (x, variable), call("receive", end), self.use(live, goal, around, depth))
        if move[0] == "+":
            return self.selected(end, move[1], rest, others, goal, around, depth)
        if move[0] == "&":
            return self.offered(end, move[1], rest, others, goal, around, depth)
        if move[0] in ("Close", "Wait"):
            closing = call(move[0].lower(), end)
            return written.sequence(closing, self.use(others, goal, around, depth))
        return self.recursive(end, move, rest, others, goal, around, depth)

    def selected(self, end, branches, rest, others, goal, around, depth):
        def branch(label, moves):
            return self.go_on(call("select", label, end), moves + rest, others, goal, around, depth)
        soonest = min(branches, key=lambda pair: written.length(pair[1]))
        another = self.random.choice(branches)
        if ("m", INT) in around and another != soonest:
            condition = written.operator(name("m"), "<", number(1))
            return written.choose(condition, branch(*soonest), branch(*another))
        return branch(*(soonest if self.chance(0.4) else another))

    def offered(self, end, branches, rest, others, goal, around, depth):
        arms = []
        for label, moves in self.random.sample(branches, len(branches)):
            variable = self.local(others)
            live, known = self.bound_end(variable, moves + rest, others, around)
            arms.append(("%s %s" % (label, variable), self.use(live, goal, known, depth - 1)))
        return written.arms("match", end, "with", arms)

    def recursive(self, end, move, rest, others, goal, around, depth):
        if depth > 0 and self.chance(0.25):
            return self.step(end, written.unfolded(move) + rest, others, goal, around, depth - 2)
        if closes((move,)) or rest[-1:] != (REST,) and self.chance(0.3) and self.is_tail(move, rest):
            return self.counted(self.by_helper(end, (move, *rest), around), others, goal, around, depth)
        helper = self.passing_helper(move)
        types = "@" + self.types.text(("end", rest), "atom")
        variable = self.local(others)
        x = "x" if variable != "x" and "x" not in dict(others) else self.fresh("r")
        live, known = self.bound_end(variable, rest, others, bound(around, (x, INT)))
        what = call(helper[0], types, *self.arguments(helper[1], self.fuel(around), end))
        return let("(%s, %s)" % (x, variable), what, self.use(live, goal, known, depth))

    def is_tail(self, move, rest):
        return all(not names_before_the_end(moves) for moves in written.within(move)) and not rest

    # Globals that follow a protocol.

    def fuel(self, around):
        """How often a helper may go round: the variable m says it, where there is one."""
        if ("m", INT) in around:
            return written.operator(name("m"), "-", number(1))
        return number(self.random.randint(0, 4))

    def arguments(self, end_first, fuel, end):
        return (end, fuel) if end_first else (fuel, end)

    def signature(self, end_first, moves, result):
        protocol = self.types.text(("end", moves), "part")
        return "%s -> Int 1-> %s" % (protocol, result) if end_first else "Int -> %s -> %s" % (protocol, result)

    def helper(self, key, start, moves, result, quantifier, body):
        """The name of a global for this key, and whether it takes its end before its number; made where there is none."""
        if key not in self.helpers:
            helper, end_first = self.fresh(start), self.chance(0.5)
            self.helpers[key] = helper, end_first
            signature = quantifier + self.signature(end_first, moves, result)
            parameters = self.arguments(end_first, "m", "c")
            self.add_global(helper, signature, parameters, body())
        return self.helpers[key]

    def passing_helper(self, move):
        """`forall a:1S. Int -> S;a -> (Int, a)`: follows a `rec` and hands back the end."""
        moves = written.unfolded(move) + (REST,)
        goal = "pair", INT, ("end", (REST,))

        def body():
            return self.step(name("c"), moves, [], goal, [("m", INT)], self.random.randint(0, 1))
        return self.helper(("passing", move), "p", (move, REST), "(Int, a)", "forall a:1S. ", body)

    def ending_helper(self, moves):
        """`Int -> S -> Int`: follows a protocol to its end."""
        def body():
            first = written.unfolded(moves[0]) + moves[1:] if moves[0][0] == "rec" else moves
            return self.step(name("c"), first, [], INT, [("m", INT)], self.random.randint(0, 1))
        return self.helper(("ending", moves), "e", moves, "Int", "", body)

    def by_helper(self, end, moves, around):
        helper, end_first = self.ending_helper(moves)
        return call(helper, *self.arguments(end_first, self.fuel(around), end))

    def counted(self, what, others, goal, around, depth):
        """The rest, behind a term that gives a number."""
        chance = self.random.random()
        if goal == INT and chance < 0.3:
            return written.operator(what, self.random.choice("+-*"), self.use(others, goal, around, depth))
        if chance < 0.6:
            return written.sequence(what, self.use(others, goal, around, depth))
        x = self.local(others)
        return let(x, what, self.use(others, goal, bound(around, (x, INT)), depth))

    def left_to_helper(self, item, others, goal, around, depth):
        return self.counted(self.by_helper(name(item[0]), item[1][1], around), others, goal, around, depth)

    # What else may be done with a linear variable.

    def called(self, item, others, goal, around, depth):
        """A linear function is applied."""
        _, argument, result = item[1]
        what = written.apply(name(item[0]), self.value(argument, around, min(depth, 1)))
        if self.chance(0.3):
            what = call(self.from_library("call"), "@" + self.types.text(argument, "atom"), "@" + self.types.text(result, "atom"),
                        name(item[0]), self.value(argument, around, 0))
        x = self.local(others)
        if is_linear(result):
            return let(x, what, self.use([*others, (x, result)], goal, [other for other in around if other[0] != x], depth))
        return let(x, what, self.use(others, goal, bound(around, (x, result)), depth))

    def detour(self, item, others, goal, around, depth):
        ways = [self.renamed, self.packed, self.branched, self.by_cases, self.handed_in, self.new_channel]
        if not is_kept(item):
            ways += [self.forked, self.closure, self.first]
        way = self.random.choice(ways)
        if way in (self.branched, self.by_cases, self.new_channel):
            return way([item, *others], goal, around, depth)
        return way(item, others, goal, around, depth)

    def rebound(self, item, others, around):
        """A variable for the same end, and what is live and around then."""
        variable = self.local(others)
        return variable, [*others, (variable, item[1])], [other for other in around if other[0] != variable]

    def renamed(self, item, others, goal, around, depth):
        variable, live, around = self.rebound(item, others, around)
        return let(variable, name(item[0]), self.use(live, goal, around, depth))

    def packed(self, item, others, goal, around, depth):
        """The end in a pair with a value, and out again."""
        inner = self.printable()
        value = self.value(inner, around, 1)
        variable, live, around = self.rebound(item, others, around)
        x = self.fresh("w")
        around = bound(around, (x, inner))
        if self.chance(0.4):
            types = ["@" + self.types.text(inner, "atom"), "@" + self.types.text(item[1], "atom")]
            what = call(self.from_library("swap"), *types, written.pair(value, name(item[0])))
            return let("(%s, %s)" % (variable, x), what, self.use(live, goal, around, depth))
        return let("(%s, %s)" % (x, variable), written.pair(value, name(item[0])), self.use(live, goal, around, depth))

    def branched(self, live, goal, around, depth):
        condition = self.value(BOOL, around, 2)
        return written.choose(condition, self.use(live, goal, around, depth - 1), self.use(live, goal, around, depth - 1))

    def by_cases(self, live, goal, around, depth):
        if not self.data:
            return self.branched(live, goal, around, depth)
        data = self.random.choice(sorted(self.data))
        return self.cases(data, around, lambda known: self.use(live, goal, known, depth - 1), 1)

    def handed_in(self, item, others, goal, around, depth):
        """A function of the end, which is applied where it stands."""
        variable, live, around = self.rebound(item, others, around)
        arrow = "1->" if others or self.chance(0.5) else "->"
        body = self.use(live, goal, around, depth)
        function = written.OPEN, "\\%s:%s %s %s" % (variable, self.types.text(item[1], "part"), arrow, body[1])
        return written.apply(function, name(item[0]))

    def forked(self, item, others, goal, around, depth):
        task = self.use([item], self.printable(), around, depth - 1)
        return written.sequence(call("fork", task), self.use(others, goal, around, depth))

    def first(self, item, others, goal, around, depth):
        """The end is used up before the others are."""
        inner = self.printable()
        what = self.use([item], inner, around, depth - 1)
        if self.chance(0.3):
            return written.sequence(what, self.use(others, goal, around, depth))
        x = self.local(others)
        return let(x, what, self.use(others, goal, bound(around, (x, inner)), depth))

    def closure(self, item, others, goal, around, depth):
        """A linear function that holds the end."""
        x, inner, result = "y" if item[0] != "y" else "x", self.printable(), self.printable()
        body = self.use([item], result, bound(around, (x, inner)), depth - 1)
        function = written.OPEN, "\\%s:%s 1-> %s" % (x, self.types.text(inner, "part"), body[1])
        f = self.local(others)
        live = [*others, (f, ("1->", inner, result))]
        return let(f, function, self.use(live, goal, [other for other in around if other[0] != f], depth))

    def new_channel(self, live, goal, around, depth):
        """A new channel, of which one end mostly is another task's."""
        moves = self.protocols.protocol(self.random.randint(1, 6))
        a, b = self.fresh("a"), self.fresh("b")
        new = call("new", self.types.text(("end", moves), "atom"))
        if moves == ():
            return let("(%s, %s)" % (a, b), new, self.use(live, goal, [*around, (a, DONE), (b, DONE)], depth))
        left, right = (a, ("end", moves)), (b, ("end", dual(moves)))
        mine, theirs = self.random.sample([left, right], 2)
        if self.chance(0.15):
            return let("(%s, %s)" % (a, b), new, self.use([*live, left, right], goal, around, depth - 1))
        task = self.use([theirs], self.printable(), around, depth - 1)
        rest = written.sequence(call("fork", task), self.use([*live, mine], goal, around, depth - 1))
        return let("(%s, %s)" % (a, b), new, rest)


def names_before_the_end(moves):
    """Whether a name of a `rec` stands anywhere but at the ends of the moves."""
    return any(has_names(move) for move in moves[:-1]) or any(
        names_before_the_end(rest) for move in moves[-1:] if move[0] in ("+", "&") for rest in written.within(move)) or any(
        has_names(move) for move in moves[-1:] if move[0] == "rec")


def has_names(move):
    return move[0] == "name" or any(has_names(inner) for rest in written.within(move) for inner in rest)


def finished(program, random):
    """The text of the module, its declarations in any order."""
    if random.random() < 0.4:
        random.shuffle(program.declarations)
    return program.declarations


def typed(random):
    """The declarations of a module that is well typed."""
    program = Program(random)
    for _ in range(random.choice([0, 0, 1, 2])):
        program.add_data()
    if random.random() < 0.3:
        moves = program.protocols.protocol(4)
        if moves:
            program.declarations.append(program.types.alias("P", ("end", moves)))
    for _ in range(random.choice([0, 0, 1, 2])):
        around = [(x, program.printable()) for x in random.sample("xyzk", random.randint(0, 2))]
        goal = program.printable()
        signature = " -> ".join([*(program.types.text(t, "part") for _, t in around), program.types.text(goal)])
        program.add_global(program.fresh("g"), signature, [x for x, _ in around], program.value(goal, around, 4))
    goal = program.printable()
    program.add_global("main", program.types.text(goal), [], program.use([], goal, [], random.randint(2, 6)))
    return finished(program, random)


def two_sides(random):
    """The declarations of a module with a protocol and a program for each side."""
    program = Program(random)
    program.room = 15
    moves = program.protocols.protocol(random.randint(2, 9)) or (("!", "Int"),)
    if random.random() < 0.5:
        program.declarations.append(program.types.alias("Left", ("end", moves)))
        program.declarations.append(program.types.alias("Right", ("end", dual(moves))))
    left, right = program.by_helper(name("a"), moves, []), program.by_helper(name("b"), dual(moves), [])
    here, there = (left, right) if random.random() < 0.5 else (right, left)
    body = let("(a, b)", call("new", program.types.text(("end", moves), "atom")), written.sequence(call("fork", there), here))
    program.add_global("main", "Int", [], body)
    return finished(program, random)
