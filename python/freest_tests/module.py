"""What is found of modules: places, all faults, types at places, and types written shorter."""
from freest_tools import program, questions, source, types

from . import differ

# A module, and the faults that it has, the first one first.
FAULTS = [
    ("main : Int\nmain = 5\n", []),
    ("f : !Int -> Int\nf c = 5\ng : !Int -> Skip\ng c = send True c\nmain : Int\nmain = True\n",
     ["2:3 unused c", "4:7 no move !Bool in !Int", "6:8 type Bool wanted Int"]),
    ("f : Int\nf = g\ng : Int\ng = 5 5\n", ["1:1 no main", "4:5 not a function Int"]),
    (
        "f : Nat -> Int\nf x = x\ng : Int\ng = 5 +\nmain : Int\nmain = h\n",
        ["5:1 syntax", "1:5 unbound Nat", "6:8 unbound h"],
    ),
    ("data D = A | A\nmain : D\nmain = B\n", ["1:14 twice A"]),
    ("type T = !Int;T\nmain : Int\nmain = 'a'\n", ["1:6 alias loop T", "3:8 type Char wanted Int"]),
    (
        "f : forall a:*T. a -> a\nf x = 5\nmain : Int\nmain = f 5\n",
        ["2:7 type Int wanted a1", "4:8 type arguments 0 wanted 1"],
    ),
    ("main : Int\nmain = #\n", ["2:8 bad character"]),
    ("", ["1:1 no main"]),
]
ECHO = """type Echo = !Int;?Int;Close
ask : Echo -> Int 1-> Int
ask c n =
  let c = send n c in
  let (é, d) = receive c in
  close d; é
keep : forall a:1S. !Int;a -> a
keep e = send 1 e
main : Int
main = let (x, y) = new Echo in fork (let (n, z) = receive y in wait (send n z)); (\\f:(Int -> Int) -> f 2) (\\k:Int -> k) + ask x 7
"""
# The place of a name in it, and its type there.
TYPES = [
    ("2:1", "Echo -> Int 1-> Int"), ("3:5", "!Int;?Int;Close"), ("3:7", "Int"), (
        "4:7", "Skip;?Int;Close"
    ), ("4:16", "Int"), ("4:18", "!Int;?Int;Close"),
    ("5:8", "Int"), ("5:12", "Skip;Close"), ("6:9", "Skip;Close"), ("6:12", "Int"), (
        "7:1", "forall a:1S. !Int;a -> a"
    ), ("8:6", "!Int;a1"),
    ("10:13", "!Int;?Int;Close"), ("10:16", "?Int;!Int;Wait"), ("10:44", "Int"), ("10:78", "Skip;!Int;Wait"), (
        "10:103", "Int -> Int"
    ), ("1:1", None),
    ("99:1", None),
]
# A text of a type; what the aliases make of it; and what is next on it.
NAMES = {"!Int;?Bool": "Ask", "rec x. +{Leaf: Skip, Node: !Int;x;x}": "Tree"}
SHORTENED = [
    ("!Int;?Bool", "Ask", "`send` of a value of type Int"),
    ("(rec x1. +{Leaf: Skip, Node: !Int;x1;x1});!Int;?Bool", "Tree;Ask", "`select` of one of `Leaf`, `Node`"),
    ("Skip", "Skip", "nothing: it is done"),
    ("&{A: Skip, B: Close}", "&{A: Skip, B: Close}", "`match` with an arm for each of `A`, `B`"),
    ("Skip;Close", "Skip;Close", "`close`"), ("Wait", "Wait", "`wait`"), ("?();Skip", "?();Skip", "`receive`"), (
        "a1", "a1", "whatever a1 stands for"
    ),
]
# Two types, and what is shown of them.
APART = [
    ("!Int", "?Int", ("!Int", "?Int")),
    (
        "+{A: !Int, B: Skip, C: !Bool;!Bool;!Bool;!Bool;!Bool;!Bool;!Bool;!Bool}",
        "+{A: ?Int, B: Skip, C: !Bool;!Bool;!Bool;!Bool;!Bool;!Bool;!Bool;!Bool}",
        ("+{A: !Int, ..}", "+{A: ?Int, ..}"),
    ),
]


def tried():
    faults = []
    for text, wanted in FAULTS:
        found = [f"{it.line}:{it.column} {it.phrase}" for it in questions.faults(text)]
        faults += differ(f"faults of {text!r}", found, wanted)
    faults += differ("the answer to a module", program.call(["check"], ECHO).out, "accepted\n")
    for place, wanted in TYPES:
        found = questions.type_at(ECHO, *map(int, place.split(":")))
        faults += differ(f"the type at {place}", found and found.type, wanted)
    faults += written() + places() + bounds()
    return faults, f"{len(FAULTS)} modules with their faults, {len(TYPES)} types at places, {len(SHORTENED) + len(APART)} types written shorter"


def written():
    names, faults = {types.read(text): name for text, name in NAMES.items()}, []
    module = "".join(f"type {name} = {text}\n" for text, name in NAMES.items())
    faults += differ("aliases", types.aliases(module), names)
    for text, wanted, moves in SHORTENED:
        faults += differ(f"{text} with aliases", types.shortened(text, names), wanted)
        faults += differ(f"{text} written again", types.written(types.read(text)), text)
        faults += differ(f"the next move of {text}", types.moves(types.read(text)), moves)
    for one, two, wanted in APART:
        faults += differ(f"{one} beside {two}", types.apart(one, two, {}), wanted)
    for text in ("", "!", "(", "+{A Skip}", "!Int !Int", "(" * 5000):
        faults += differ(f"the type {text[:20]!r}", types.read(text), None)
    return faults


def places():
    """Returns faults of lines, columns and offsets, in a text with characters of one, two and four bytes."""
    text, faults = "é = 'a'\n\n𝒳 x\n", []
    for offset in range(len(text) + 1):
        faults += differ(f"the offset {offset}", source.offset_of(text, *source.place_of(text, offset)), offset)
    faults += differ("a column in bytes", source.place_of(text, 11), (3, 6))
    faults += differ("a place behind the text", source.offset_of(text, 50, 1), len(text))
    parts = [
        (it.kind, it.name) for it in source.declarations("-- a\n data D = A\ntype T = !Int\n-- b\nf : T\nf = f\n+\n")
    ]
    faults += differ(
        "declarations", parts, [("data", "D"), ("type", "T"), ("signature", "f"), ("equation", "f"), ("other", None)]
    )
    return faults


def bounds():
    """Returns faults of the bounds of a call."""
    faults = differ(
        "a call that may write nothing", program.call(["check"], "main : Int\nmain = 5\n", output=1).stopped, "output"
    )
    loop = program.call(["-c", "while :; do :; done"], "", path="/bin/sh", seconds=1)
    faults += differ("a call that takes a processor", loop.stopped in ("processor", "clock"), True)
    faults += differ(
        "a call that sleeps", program.call(["-c", "sleep 30"], "", path="/bin/sh", seconds=0.2).stopped, "clock"
    )
    faults += differ("a program that isn't there", program.call(["check"], "", path="/nonexistent/program").status, 127)
    return faults
