"""One task (docs/SEMANTICS.md, One task): by value, from left to right, on to what the task asks for next.

Values: a number, a truth value, a character as a text, () and tuples ("pair", v, w), ("made", name, fields), ("function", body,
environment), ("end", channel, side). An environment is a pair of the innermost variable's value and the environment around.
What a term comes to next is a pair: a term and its environment, VALUE and a value, or ASK and a `Request`. A frame is a function,
which is given a value and the frames behind, and what it holds.
"""
from collections import namedtuple

VALUE, ASK = "value", "ask"
# `Request`: "step", "new", "fork", "put", "get" or "ended"; what it asks with; and what follows its answer
Request = namedtuple("Request", "kind what then")

OPERATIONS = {
    "+": lambda a, b: wrapped(a + b), "-": lambda a, b: wrapped(a - b), "*": lambda a, b: wrapped(a * b),
    "==": lambda a, b: a == b, "/=": lambda a, b: a != b, "<": lambda a, b: a < b, "<=": lambda a, b: a <= b,
    ">": lambda a, b: a > b, ">=": lambda a, b: a >= b, "&&": lambda a, b: a and b, "||": lambda a, b: a or b,
}


def wrapped(n):
    """A number of 64 bits in two's complement."""
    return (n + 2 ** 63) % 2 ** 64 - 2 ** 63


def pause(now, frames):
    """`pause`: where a task stands still next."""
    while True:
        what, held = now
        if what is VALUE:
            if not frames:
                return Request("ended", held, None)
            resume, *kept = frames.pop()
            now = resume(held, frames, *kept)
        elif what is ASK:
            return held
        else:
            now = EVALUATIONS[what.form](what, held, frames)


def constant(e, env, fs):
    return VALUE, e.value


def in_turn(then):
    """`eval` of a form whose parts are evaluated from left to right, and of whose values `then` makes what follows."""
    def begin(e, env, fs):
        return next_part((), fs, e, env) if e.parts else then(e)

    def next_part(done, fs, e, env):
        fs.append((took, done, e, env))
        return e.parts[len(done)], env

    def took(value, fs, done, e, env):
        done += (value,)
        return next_part(done, fs, e, env) if len(done) < len(e.parts) else then(e, *done)
    return begin


def behind_first(then):
    """`eval` of a form whose first part comes first, and of whose value `then` makes what follows."""
    def begin(e, env, fs):
        fs.append((then, e, env))
        return e.parts[0], env
    return begin


def local(e, env, fs):
    """`lookup`"""
    for _ in range(e.value):
        env = env[1]
    return VALUE, env[0]


def case(value, fs, e, env):
    """`eval_arm`"""
    for field in value[2]:
        env = (field, env)
    return arm_of(e, value), env


def match(value, fs, e, env):
    """`matches`"""
    return ASK, Request("get", value, lambda event: (arm_of(e, event), (value, env)))


def arm_of(e, chosen):
    """The body of the arm for a constructor or a label that came."""
    return next(arm.body for arm in e.value if arm.label == chosen[1])


def put(end, event, value):
    """`puts`, `closes`: an event is a pair, of "value", "label" or "closed" and what it has."""
    return ASK, Request("put", (end, event), (VALUE, value))


EVALUATIONS = {
    "int": constant, "bool": constant, "char": constant, "unit": lambda e, env, fs: (VALUE, ()), "local": local,
    "global": lambda e, env, fs: (ASK, Request("step", None, e.value[0])),
    "lambda": lambda e, env, fs: (VALUE, ("function", e.parts[0], env)),
    "pair": in_turn(lambda e, v, w: (VALUE, ("pair", v, w))),
    "make": in_turn(lambda e, *fields: (VALUE, ("made", e.value[1], fields))),
    "operate": in_turn(lambda e, v, w: (VALUE, OPERATIONS[e.value](v, w))),
    "not": in_turn(lambda e, v: (VALUE, not v)),
    "apply": in_turn(lambda e, f, argument: (ASK, Request("step", None, (f[1], (argument, f[2]))))),
    "let": behind_first(lambda v, fs, e, env: (e.parts[1], (v, env))),
    "split": behind_first(lambda v, fs, e, env: (e.parts[1], (v[2], (v[1], env)))),
    "then": behind_first(lambda v, fs, e, env: (e.parts[1], env)),
    "if": behind_first(lambda v, fs, e, env: (e.parts[1 if v else 2], env)),
    "case": behind_first(case),
    "match": behind_first(match),
    "new": lambda e, env, fs: (ASK, Request("new", e.value.type, lambda end, other: (VALUE, ("pair", end, other)))),
    "fork": lambda e, env, fs: (ASK, Request("fork", (e.parts[0], env), (VALUE, ()))),
    "send": in_turn(lambda e, v, end: put(end, ("value", v), end)),
    "select": in_turn(lambda e, end: put(end, ("label", e.value), end)),
    "close": in_turn(lambda e, end: put(end, ("closed", None), ())),
    "receive": in_turn(lambda e, end: (ASK, Request("get", end, lambda event: (VALUE, ("pair", event[1], end))))),
    "wait": in_turn(lambda e, end: (ASK, Request("get", end, lambda event: (VALUE, ())))),
}
