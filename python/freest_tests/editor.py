"""Names, mends, labels and messages, as the server for editors asks for them."""
from freest_tools import editing, messages, names, program, questions, source

from . import differ

MODULE = """data Tree = Leaf | Node Int Tree
type Calc = &{Add: !Int, Neg: Skip}
f : forall a:1S. !Int;a -> a
f c = let c = send 1 c in c
g : Calc -> Skip
g c = match c with {Add d -> send 2 d, Neg d -> d}
main : Int
main = let (x, y) = new (!Int;Close) in fork (let (n, e) = receive y in wait e); close (f @Close x); 5
"""
# The place of a name, a new name, and how many places change, or why that isn't done.
RENAMED = [
    ("4:3", "end", 2), ("4:11", "end", 2), ("3:1", "pass", 3), ("1:6", "Bush", 2), ("1:20", "Fork", 1), ("2:6", "Sum", 2), ("3:12", "b", 3),
    ("6:25", "end", 2), ("2:15", "Plus", "labels aren't declared, so which Add belong together isn't certain"),
    ("4:3", "X", "'X' isn't a lower name, as c is"), ("4:3", "let", "'let' isn't a lower name, as c is"),
    ("4:3", "f", 2), ("8:52", "x", 1), (
        "8:16", "x", "x means something else where y stands, or would do so elsewhere"
    ), ("8:9", "x", "there is no name here"),
]
# A module in which `|` stands where something is completed, and the names that the next move allows there.
ALLOWED = [
    ("f : +{A: Skip, B: !Int} -> Int\nf c = let d = select | c in 5\nmain : Int\nmain = 5\n", ["A", "B"]),
    ("f : +{A: Skip, B: !Int} -> Int\nf c = select |\nmain : Int\nmain = 5\n", ["A", "B"]),
    ("f : &{A: Skip, B: Skip} -> Int\nf c = match c with {A c -> 5, |}\nmain : Int\nmain = 5\n", ["B"]),
    ("data D = L | R\nf : D -> Int\nf d = case d of {| }\nmain : Int\nmain = 5\n", ["L", "R"]),
    ("f : !Int;+{Go: Skip} -> Skip\nf c = let c = send 1 c in select | c\nmain : Int\nmain = 5\n", ["Go"]),
]
# A module, and what its first fault is mended to, or None where no mend is certain.
MENDED = [
    ("f : forall a:*T. a -> a\nf x = x\nmain : Int\nmain = f 5\n", "f @Int 5"),
    (
        "f : forall a:1S. !Int;a -> a\nf c = send 1 c\ng : !Int;Close -> ()\ng c = close (f c)\nmain : Int\nmain = 5\n",
        "close (f @Close c)",
    ),
    ("f : Int\nf = 5\nmain : Int\nmain = f @Int\n", "main = f\n"),
    ("g : Close -> Int\ng c = 5\nmain : Int\nmain = 5\n", "g c = close c; 5"),
    ("g : Wait -> Int\ng c = c; 5\nmain : Int\nmain = 5\n", "g c = wait c; 5"),
    ("g : !Int;Close -> ()\ng c = fork (send 1 c)\nmain : Int\nmain = 5\n", "fork (close (send 1 c))"),
    ("g : !Int -> Int -> Skip\ng c x = send x c\nmain : Int\nmain = 5\n", "g : !Int -> Int 1-> Skip"),
    ("g : !Int -> Int\ng c = 5\nmain : Int\nmain = 5\n", None),
    ("main : Int\nmain = True\n", None),
]


def tried():
    faults = renamed() + inbox()
    for text, wanted in ALLOWED:
        offset = text.index("|", text.index(" c") if "data" not in text else text.index("{"))
        gap = editing.Gap(text[:offset] + text[offset + 1 :], offset)
        faults += differ(f"allowed in {text!r}", gap.choice and gap.allowed(program.find()), wanted)
    for text, wanted in MENDED:
        known = questions.faults(text)
        mend = editing.certain_mend(text, known[0], known, program.find())
        found = mend and editing.mended(text, mend)
        if (
            wanted not in found if found and wanted else found != wanted
        ) or found and program.call(["check"], found).out != "accepted\n":
            faults.append(f"{text!r} is mended to {found!r} in place of {wanted!r}")
    return faults, f"{len(RENAMED)} names to change, {len(ALLOWED)} places for labels, {len(MENDED)} mends"


def renamed():
    faults = differ("the answer to a module", program.call(["check"], MODULE).out, "accepted\n")
    for place, new, wanted in RENAMED:
        offset, known = source.offset_of(MODULE, *map(int, place.split(":"))), names.Names(MODULE)
        try:
            text = known.renamed(offset, new)
            found = len(known.at(offset).symbol.places)
            why = editing.rename_fault("check", MODULE, text, known.at(offset).symbol.name, new, program.find())
            faults += [f"{place} as {new}: {why}"] if why else []
        except names.Unsure as unsure:
            found = str(unsure)
        faults += differ(f"{place} as {new}", found, wanted)
    return faults


def inbox():
    """Returns faults of messages that come byte by byte, and of such that have no header."""
    given = b"Content-Length: 2\r\n\r\n{}content-length:3\n\nabcNo: 1\r\n\r\nContent-Length: 0\r\n\r\n"
    box, found = messages.Inbox(), []
    for at in range(len(given)):
        found += box.feed(given[at : at + 1])
    return differ("messages byte by byte", found, [b"{}", b"abc", None, b""]) + differ(
        "messages at once", [*messages.Inbox().feed(given)], found
    )
