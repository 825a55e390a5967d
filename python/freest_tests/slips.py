"""The usual slips in python/slips.table, and what is said of each."""
import os
import re

from freest_tools import findings, grammar, program, questions, slips, types

TABLE = f"{os.path.dirname(os.path.dirname(os.path.realpath(__file__)))}/slips.table"


def tried(write=False):
    with open(TABLE, encoding="utf-8") as opened:
        front, *blocks = opened.read().rstrip("\n").split("\n\n")
    faults, made = [], [front]
    for block in blocks:
        name, text, stored = parts(block)
        said, more = explained(name, text)
        faults += more
        if said != stored and not write:
            faults.append(f"of {name!r} is said {said!r} in place of {stored!r}")
        made.append(f"# {name}\n" + "".join(f"> {line}\n" for line in text.splitlines()) + said)
    if write:
        with open(TABLE, "w", encoding="utf-8") as opened:
            opened.write("\n\n".join(made) + "\n")
    return faults, f"{len(blocks)} slips"


def parts(block):
    """Returns the name of a slip, its text, and what is stored of it."""
    lines = block.split("\n")
    text = [line[2:] for line in lines if line.startswith("> ")]
    return lines[0][2:], "".join(f"{line}\n" for line in text), "\n".join(lines[1 + len(text) :])


def explained(name, text):
    """Returns what is said of the first fault of a slip, and a list of what is wrong with that."""
    command = "equiv" if name.startswith("question") else "check"
    fault = questions.placed(program.call([command], text).out, text)
    if not fault:
        return "", [f"{name!r} isn't refused"]
    found = findings.finding(text, fault, command, types.aliases(text) if "type " in text else {})
    lines = [f"{fault.line}:{fault.column} {found.phrase}"]
    lines += [f"  {what}: {it}" for what, its in (("why", found.why), ("mend", found.mend), ("note", found.notes)) for it in its]
    return "\n".join(lines), [*unclear(name, lines), *allowed(name, text, fault, command)]


def unclear(name, lines):
    """Returns what no one may be told: nothing at all, or what the page says where no slip is known."""
    if len(lines) < 3:
        return [f"of {name!r} too little is said"]
    return [f"{name!r} isn't known as a slip" for line in lines if re.search(r"why: no question or module goes on", line)]


def allowed(name, text, fault, command):
    """Returns a fault where the grammar of the page allows the token that the program refuses."""
    known = slips.refused(text, fault.offset, command == "equiv") if fault.phrase == "syntax" else None
    if not known:
        return []
    if not known.expected:
        return [f"{name!r}: by the grammar of the page the text ends sooner"]
    tokens = known.behind[:1] and [*known.before, known.behind[0]]
    goes_on = tokens and grammar.expected(tokens, "question" if command == "equiv" else "decl")
    return [f"{name!r}: the grammar of the page takes {known.behind[0].text!r}"] if goes_on else []
