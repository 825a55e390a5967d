"""What is said of a fault to those who begin: the phrase with short types, why it is one, what mends it, and what the
text shows of it.

The causes and cures are those of docs/LANGUAGE.md; where several causes have one phrase, those that can't hold at the
place are left out. All else is read from the text, or from types that the program has written, and is no promise.
"""
import collections
import difflib
import re

from . import questions, refusals, slips, source, types

# `why` and `mend` are lists of texts; `here` has what could stand at the place of a syntax fault, and `notes` what else
# is seen there.
Finding = collections.namedtuple("Finding", "fault phrase why mend here notes")

TYPED = re.compile(r"((?:no move .+ in|not a function|not a pair|arms|dropped|not printable) )(.+)", re.S)
COMPARED = re.compile(r"(type )(?!arguments )(.+)( wanted )(.+?)((?: word .*)?)|(undecided \d+ )(.+)( ~ )(.+)()", re.S)
# Names that others use, and what stands here for them.
FOREIGN = {
    **dict.fromkeys(("true", "false"), "the two truth values are `True` and `False`"),
    **dict.fromkeys(
        ("int", "Integer", "integer", "Nat", "nat", "i32", "i64", "Number"), "the type of whole numbers is `Int`"
    ),
    **dict.fromkeys(("bool", "Boolean", "boolean"), "the type of truth values is `Bool`"),
    **dict.fromkeys(("char", "Character"), "the type of characters is `Char`"),
    **dict.fromkeys(
        ("unit", "Unit", "void", "Void"), "the type of the one value without content is `()`, and so is its value"
    ),
    **dict.fromkeys(
        ("String", "string", "str", "Float", "float", "Double"),
        "there are neither strings nor fractions: declare a type by `data`",
    ),
    **dict.fromkeys(
        ("end", "End", "EndC", "EndW", "skip", "stop", "close", "wait", "Done"),
        "a protocol ends by `Skip`, or by `Close`, which is waited for by `Wait` at the other end",
    ),
    **dict.fromkeys(
        ("print", "println", "putStrLn", "printf", "show", "putStr"),
        "nothing is printed: the value of `main` is the result",
    ),
    **dict.fromkeys(("return", "pure"), "a term stands for its value: leave the word out"),
    **dict.fromkeys(
        ("do", "begin"), "terms stand one behind the other with `;`, and names are bound by `let x = e in`"
    ),
    "where": "put `let x = e in` in front of the term, or declare a global",
    **dict.fromkeys(("mod", "div", "rem", "quot"), "there is no division: count by subtraction"),
    "and": "both are written `&&`", "or": "one of both is written `||`", "otherwise": "there are no guards: write `if`",
    **dict.fromkeys(
        ("elif", "elsif", "unless", "when", "while"),
        "write `if .. then .. else ..`, and a function that calls itself for a loop",
    ),
    **dict.fromkeys(("dual", "dualof", "Dual"), "write the dual out: `?` for `!`, `&` for `+`, `Wait` for `Close`"),
    **dict.fromkeys(
        ("Maybe", "Option", "List", "Nothing", "Just", "None", "Some", "Nil", "Cons", "Either", "Result"),
        "each data type is declared: `data IntList = Nil | Cons Int IntList`",
    ),
    **dict.fromkeys(("fst", "snd"), "a pair is taken apart by `let (x, y) = p in`"),
    **dict.fromkeys(("fun", "fn", "function", "lambda"), "a function is written `\\x:Int -> e`"),
    **dict.fromkeys(("spawn", "async", "go", "forkWith"), "a task is started by `fork (e)`"),
    **dict.fromkeys(
        ("accept", "request", "connect", "channel", "newChan", "chan"),
        "both ends of a channel are made by `new S`: `let (a, b) = new (!Int;Close) in ..`",
    ),
    **dict.fromkeys(("recv", "read", "input"), "a value is received by `let (x, c) = receive c in ..`"),
    **dict.fromkeys(("write", "output"), "a value is sent by `let c = send 5 c in ..`"),
    **dict.fromkeys(("branch", "offer", "rcase"), "labels are received by `match c with {A c -> ..}`"),
    "deriving": "nothing is derived: leave it out",
}


def finding(text, fault, command="check", names=None):
    """Returns the Finding of a fault in this text. `names` has the aliases of the module, as `types.aliases` finds
    them."""
    names = names or {}
    phrase = short(text, fault, names)
    slip, here = slips.slip(text, fault, command)
    causes = [slips.Slip(*it) for it in fitting(text, fault, command, refusals.causes(phrase, command))]
    if slip:
        causes = [slip]
    why, mend = ([*dict.fromkeys(it[at] for it in causes)] for at in (0, 1))
    why, mend, notes = detailed(text, fault, command, names, why, mend) if fault.kind == "refused" else (why, mend, [])
    return Finding(fault, phrase, why, mend, here, notes)


def reasons(found):
    """Returns the lines that explain a Finding, each with what it says."""
    lines = [("why", it) for it in found.why] + [("mend", it) for it in found.mend] + [
        ("note", it) for it in found.notes
    ]
    return lines + [("here", f"could stand {', or '.join(found.here)}")] * bool(found.here)


def short(text, fault, names):
    """Returns the phrase of a fault whose types have the module's own names, and of two long types what differs."""
    phrase = questions.said(fault)
    found = TYPED.fullmatch(phrase)
    if found:
        return found[1] + source.with_own_names(text, fault.offset, types.shortened(found[2], names))
    found = COMPARED.fullmatch(phrase)
    if found:
        front, one, between, two, behind = [it for it in found.groups() if it is not None]
        one, two = types.apart(one, two, names)
        return front + source.with_own_names(text, fault.offset, one + between + two + behind)
    return phrase


def fitting(text, fault, command, causes):
    """Returns those causes that can hold at the place of a fault; all where that isn't seen."""
    if command != "check" or len(causes) < 2:
        return causes
    part = source.declaration_at(text, fault.offset)
    before = [token.text for token in source.tokens(text[: fault.offset]) if token.text != "("][-1:]
    token = source.token_at(text, fault.offset)
    words = fault.phrase.split()
    if words[0] == "unbound" and part:
        is_own = part.start == fault.offset
        is_variable = part.kind != "signature" and words[1] in all_variables(text)
        return causes[2:] if is_own else causes[1:2] if is_variable else causes[:1]
    if words[0] == "kind":
        return causes[1:2] if before == ["new"] else causes[2:] if before == ["@"] else causes[:1]
    if words[0] == "arity":
        return causes[:1] if token and token.kind == "upper" else causes[1:]
    if words[:2] == ["type", "arguments"]:
        return causes[1:] if part and part.kind == "signature" else causes[:1]
    if words[0] == "arms":
        return causes[1:] if labels_of(text, fault.phrase[len("arms ") :]) else causes[:1]
    return causes


def all_variables(text):
    return {name for part in source.declarations(text) if part.kind == "signature" for name in source.variables(part)}


def detailed(text, fault, command, names, why, mend):
    """Returns why a fault is one, what mends it, and what else the text shows, with what is found for its phrase."""
    words = fault.phrase.split()
    told = DETAILS.get(" ".join(words[:2])) or DETAILS.get(words[0])
    return told(text, fault, names, why, mend) if told and command == "check" else (why, mend, [])


def unbound(text, fault, names, why, mend):
    name = fault.phrase.split()[1]
    part = source.declaration_at(text, fault.offset)
    if name in FOREIGN:
        return why, [FOREIGN[name]], []
    if part and part.start == fault.offset:
        return why, mend, []
    if part and part.kind == "signature" and re.fullmatch(r"[a-z]\d*'*", name):
        return why, [f"a variable is declared in front of the type: `forall {name}:*T.` for values, `forall {name}:1S.` for a protocol"], []
    known = {token.text for token in source.tokens(text) if token.kind in ("lower", "upper") and token.text != name}
    near = difflib.get_close_matches(name, known, 1, 0.6)
    return why, mend, [f"`{near[0]}` is written nearly so"] if near else []


def labels_of(text, type):
    """Returns the constructors of a data type, or the labels of a choice that a protocol begins with; or none."""
    data = next((part for part in source.declarations(text) if part.kind == "data" and part.name == type), None)
    if data:
        return source.constructors(data)
    head = types.head(types.read(type))
    return list(head.value[1]) if head and head.form == "choice" else []


def arms(text, fault, names, why, mend):
    wanted = labels_of(text, fault.phrase[len("arms ") :])
    found = written_arms(text, fault.offset)
    if not wanted:
        return why, mend, []
    groups = (
        ("is missing", [it for it in wanted if it not in found]),
        ("doesn't belong here", [it for it in found if it not in wanted]),
        ("stands twice", [it for it in dict.fromkeys(found) if found.count(it) > 1]),
    )
    return why, mend, [f"`{it}` {what}" for what, labels in groups for it in dict.fromkeys(labels)]


def written_arms(text, offset):
    """Returns the names in front of the arms of the `case` or `match` at an offset."""
    depth, found, before = 0, [], ""
    for token in source.tokens(text[offset:]):
        if depth == 1 and before in ("{", ",") and token.kind == "upper":
            found.append(token.text)
        depth += {"{": 1, "(": 1, "}": -1, ")": -1}.get(token.text, 0)
        # (a parenthesis in front of the arms is no arm)
        if depth == 0 and token.text == "}":
            break
        before = token.text
    return found


def no_move(text, fault, names, why, mend):
    sent, type = re.fullmatch(r"no move (.+) in (.+)", fault.phrase, re.S).groups()
    read, end = types.read(type), types.read(sent[1:].strip("()"))
    if sent[0] == "!" and end and types.is_protocol(end) and not types.is_protocol(read):
        return why, ["the value stands in front of the end: `send 5 c`"], []
    if not types.is_protocol(read):
        return why, [f"an end of a channel, whose type is a protocol; {type} is none"], []
    return why, [f"{types.shortened(type, names)} has another move next: {types.moves(read)}"], []


def unused(text, fault, names, why, mend):
    return left_over(text, fault, names, why, mend, questions.type_at(text, fault.line, fault.column, seconds=2))


def left_over(text, fault, names, why, mend, typed):
    type = types.read(typed.type) if typed else None
    if not type:
        return why, mend, []
    shown = types.shortened(typed.type, names)
    if not types.is_protocol(type):
        return why, mend, [f"`{typed.name}` has the type {shown}"]
    return why, mend, [f"`{typed.name}` has the type {shown}; next on it is {types.moves(type)}"]


def dropped(text, fault, names, why, mend):
    type = types.read(fault.phrase[len("dropped ") :])
    if not type or not types.is_protocol(type):
        return why, mend, []
    return why, mend, [f"next on it is {types.moves(type)}"]


def used(text, fault, names, why, mend):
    """Shows where the variable stands before, in the same equation."""
    part, name = source.declaration_at(text, fault.offset), fault.phrase.split()[-1]
    before = [token for token in source.tokens(text[: fault.offset]) if token.text == name and token.start > part.start]
    if not before:
        return why, mend, []
    line, column = source.place_of(text, before[-1].start)
    return why, mend, [f"`{name}` stands before at {line}:{column}"]


def arity(text, fault, names, why, mend):
    token = source.token_at(text, fault.offset)
    for part in source.declarations(text):
        if part.kind == "data" and token and token.text in source.constructors(part):
            declared = next(
                it for it in re.split(r"[=|]", source.without_comments(part.text))[1:] if it.split()[:1] == [token.text]
            )
            return why, mend, [f"it is declared as `{' '.join(declared.split())}`"]
    return why, mend, signature_note(text, token)


def type_arguments(text, fault, names, why, mend):
    return why, mend, signature_note(text, source.token_at(text, fault.offset))


def signature_note(text, token):
    signatures = [
        part for part in source.declarations(text) if part.kind == "signature" and token and part.name == token.text
    ]
    return [f"its signature is `{token.text} : {source.type_of(signatures[0])}`"] if signatures else []


def wanted(text, fault, names, why, mend):
    found = re.fullmatch(r"type (.+) wanted (.+?)(?: word (.+) (left|right))?", fault.phrase, re.S)
    one, two = types.read(found[1]), types.read(found[2])
    if found[3]:
        *labels, last = found[3].split(" ")
        sides = ("the type of this term", "the wanted one")
        only = sides[found[4] == "right"]
        front = f"behind {' '.join(labels)}, which both perform," if labels else "at once"
        return [f"{front} {only} goes on by {last}, and the other one doesn't"], [
            "another term, or another signature: the two have to agree on every move"
        ], []
    if not one or not two:
        return why, mend, []
    if {one.form, two.form} == {"->", "1->"}:
        return why, ["`->` for functions that are applied at will and `1->` for those that are applied once aren't taken for each other: write the same arrow"], []
    behind = source.tokens(text[fault.offset :])[1:3]
    if one.form in ("->", "1->") and two == types.read("Int") and [
        it.text for it in behind[:1]
    ] == ["-"] and behind[1:]:
        return why, [f"`-` subtracts here; a negative argument stands in parentheses: `(0 - {behind[1].text})`"], []
    if one.form in ("->", "1->") and two.form not in ("->", "1->"):
        return why, ["another argument: this is still a function; or another signature"], []
    if one.form == "pair" and two.form != "pair":
        return why, ["`let (x, c) = .. in ..` takes a pair apart, such as that of `receive`; or another signature"], []
    return why, mend, []


DETAILS = {
    "unbound": unbound, "arms": arms, "no move": no_move, "unused": unused, "dropped": dropped, "used twice": used, "branches": used,
    "captured": used, "arity": arity, "type arguments": type_arguments, "type": wanted,
}
