"""What an editor asks of a module that is being written: the labels that an end's next move allows, what mends a fault,
and whether a name may be changed.

The program is asked for the type of a term: where `((e) ())` stands in place of e it says `not a function T`. A mend is
offered where the program goes further with it: the fault is gone, and all that is new stands behind it in the same
declaration.
"""
import collections
import re

from . import program, protocol, questions, source
from .names import TERM_ENDS, Names

TERM_WORDS = "let in if then else case of match with new send receive select close wait fork not True False".split()
TYPE_WORDS = "rec Skip Close Wait Int Bool Char".split()
CLOSED_BY = {
    "(": ")",
    "{": "}",
    "let": "in ()",
    "if": "then () else ()",
    "then": "else ()",
    "match": "with {X x -> ()}",
    "case": "of {X'x -> ()}",
}
MOST_TRIED = 4  # variables that may be what a `select` without an argument looks at
ENDINGS = {"Close": "close", "Wait": "wait"}
ATOMS = "(", "True", "False"
NOT_READ = "syntax", "bad character", "number too wide", "name too long", "not utf-8", "depth", "length"

# `title` says what is done, and `edits` are what is replaced: a start, an end and a text each.
Mend = collections.namedtuple("Mend", "title edits")


def tokens_from(text, offset):
    """Returns the tokens from an offset to the end of its declaration, with their offsets in the text."""
    part = source.declaration_at(text, offset)
    found = source.tokens(text[offset : part.start + len(part.text)])
    return [it._replace(start=it.start + offset, end=it.end + offset) for it in found]


def atom_end(tokens, index):
    """Returns the index behind the atom, of a type or a term, that begins at an index."""
    depth = 0
    for at in range(index, len(tokens)):
        depth += {"(": 1, "{": 1, ")": -1, "}": -1}.get(tokens[at].text, 0)
        if depth <= 0 and tokens[at].text not in ("!", "?", "+", "&"):
            return at + 1
    return len(tokens)


# What may stand at a place.


def type_of(text, begin, end, term, path):
    """Returns the type of a term, for which is asked in place of what stands between two offsets; or None."""
    probe = f"(({term}) ())"
    module = questions.Module(text[:begin] + probe + text[end:], path)
    here = max(index for index, part in enumerate(module.parts) if part.start <= begin)
    module.alone(here, module.texts[here])
    for _ in range(questions.MOST_FAULTS):
        fault, owner = module.fault()
        words, _, found = fault.phrase.partition(" function ") if fault else ("", "", "")
        if words == "not a" and begin <= fault.offset < begin + len(probe):
            return found
        if not fault or owner == here or not module.move(owner, fault.phrase) or module.states[here] != "here":
            break
    return None


class Gap:
    """The place at an offset of a text, where a name from `start` to `end` has been begun. `place` is that of a name
    that stands for it, or None where there can't be one, and `choice` the Choice to which it belongs, or None. In
    `text` it is an upper name."""

    def __init__(self, text, offset, is_question=False):
        line = text.rfind("\n", 0, offset) + 1
        tokens = source.tokens(text[line:].partition("\n")[0], with_comments=True)
        around = next((it for it in tokens if line + it.start < offset <= line + it.end and it.kind not in ("sign", "bad", "number")), None)
        self.start, self.end = (line + around.start, line + around.end) if around else (offset, offset)
        self.names = Names(f"{text[: self.start]}z'z{text[self.end :]}", is_question)
        self.text = f"{text[: self.start]}Z'z{text[self.end :]}"
        self.place = self.names.at(self.start) if not around or around.kind in ("lower", "upper", "word") else None
        self.choice = next((it for it in self.names.choices if any(one is self.place for one in it.places)), None)

    def known(self):
        """Returns the names that are known there, each with the kind of its Symbol, and reserved words."""
        kind = self.place.symbol.kind
        if self.place.binds and kind != "label":
            kinds, variables, words = ("global",), {}, ("data", "type") if kind == "global" else ()
        elif kind in ("type", "type variable"):
            kinds, variables, words = ("type",), self.place.types, TYPE_WORDS
        elif kind == "label" or self.choice:
            kinds, variables, words = (kind,), {}, ()
        else:
            kinds, variables, words = ("global", "constructor"), self.place.terms, TERM_WORDS
        declared = [it for it in self.names.symbols.values() if it.kind in kinds and it.binders() and self.place not in it.places]
        return [(it.name, it.kind) for it in [*variables.values(), *declared]] + [(it, "word") for it in words]

    def allowed(self, path):
        """Returns the labels of the next move, or the constructors, that the Choice hasn't yet; None where the type of
        what it looks at isn't found. A `select` without an argument looks at the last variable in scope that fits."""
        start, end = self.choice.start, self.choice.end
        terms = [f" {it}" for it in list(self.place.terms)[: -MOST_TRIED - 1 : -1]] if start == end else [
            self.text[start:end]
        ]
        texts = [(self.text[:start] + it + self.text[end:], it) for it in terms]
        texts = [(text, it) for text, it in texts if start < end] + [
            (closed(text, start + len(it)), it) for text, it in texts
        ]
        there = {it.symbol.name for it in self.choice.places}
        for text, term in texts:
            found = type_of(text, start, start + len(term), term, path)
            fitting = self.fitting(found) if found else []
            if fitting or found and start < end:
                return [it for it in fitting if it not in there]
        return None

    def fitting(self, found):
        """Returns the labels or constructors that fit the type `found`."""
        if self.choice.word == "case":
            parts = (it for it in source.declarations(self.text) if (it.kind, it.name) == ("data", found))
            return [it for part in parts for it in source.constructors(part)]
        return [it[1:] for it in labels(found) if it[0] == {"select": "+", "match": "&"}[self.choice.word]]


def labels(found):
    """Returns the labels by which an end of this type moves next, such as `+Add`; none of a type that is no
    protocol."""
    try:
        word = protocol.Reader(found, set(re.findall(r"\ba[0-9]+\b", found))).whole()
        return [label for label, _ in protocol.moves(word)] if word else []
    except (protocol.Refused, RecursionError):
        return []


def closed(text, at):
    """Returns the text with the equation at an offset cut there, and closed by what is open."""
    part, opened = source.declaration_at(text, at), []
    for token in source.tokens(text[part.start : at]):
        if token.text in CLOSED_BY and token.text != "then":
            opened.append(token.text)
        elif token.text in (")", "}", "in", "then", "else", "of", "with") and opened:
            opened[-1:] = ["then"] * (token.text == "then")
    closing = " ".join(CLOSED_BY.get(it, "") for it in reversed(opened))
    # (a constructor has to be declared)
    return f"{text[:at]} {closing}\n{text[part.start + len(part.text) :]}" + "\ndata X'x = X'x\n" * ("case" in opened)


# Mends.


def certain_mend(text, fault, known, path):
    """Returns the first Mend of a fault with which the program goes further, or None. `known` are all faults of the
    text."""
    mend = MENDS.get(" ".join(fault.phrase.split()[: 2 if fault.phrase.startswith("type") else 1]))
    return next(
        (it for it in (mend(text, fault, path) if mend else []) if goes_further(text, fault, known, it, path)), None
    )


def mended(text, mend):
    for start, end, new in sorted(mend.edits, reverse=True):
        text = text[:start] + new + text[end:]
    return text


def goes_further(text, fault, known, mend, path):
    def owned(text, it):
        return sum(part.start <= it.offset for part in source.declarations(text)), it.phrase

    new, behind = mended(text, mend), len(text) - max(fault.offset, *(end for _, end, _ in mend.edits))
    before, own = {owned(text, it) for it in known if it != fault}, owned(text, fault)[0]
    after = [(owned(new, it), len(new) - it.offset < behind) for it in questions.faults(new, path)]
    return all(it in before or it[0] == own and is_behind for it, is_behind in after)


def close_unused(text, fault, path):
    """Mends an end that isn't used and has nothing left to do but to be closed, or to wait for that."""
    typed = questions.type_at(text, fault.line, fault.column, path)
    word = ENDINGS.get("".join(labels(typed.type))) if typed else None
    token = tokens_from(text, fault.offset)[0]
    at = questions.where_to_ask(text, source.declaration_at(text, fault.offset), token)[0]
    if word and at:
        yield Mend(f"{word} {token.text} first", [(at[0], at[0], f"{word} {token.text}; ")])


def close_dropped(text, fault, path):
    """Mends such an end that is dropped in front of `;` or by `fork`."""
    word = ENDINGS.get("".join(labels(fault.phrase.partition(" ")[2])))
    tokens, is_forked = tokens_from(text, fault.offset), source.tokens(text[: fault.offset])[-1].text == "fork"
    end, ends = (1, ()) if is_forked else (0, TERM_ENDS | {";"})
    while ends and end < len(tokens) and tokens[end].text not in ends:
        end = atom_end(tokens, end)
    front, behind = ("(", ")") if is_forked else ("", "")
    if end > 1:
        front, behind = f"{front}{word} (", f"){behind}"
    else:
        front = f"{front}{word} "
    if word:
        yield Mend(
            f"{word} it", [(fault.offset, fault.offset, front), (tokens[end - 1].end, tokens[end - 1].end, behind)]
        )


def apply_once(text, fault, path):
    """Mends a linear variable that a function holds: that function, or those behind the parameter, get arrows `1->`."""
    part, name = source.declaration_at(text, fault.offset), fault.phrase.partition(" ")[2]
    tokens, signature = tokens_from(text, part.start), source.signature_of(text, part.name)
    for index, token in reversed(list(enumerate(tokens))):
        if token.text == "\\" and token.start < fault.offset:
            yield Mend("let the function be applied once", linear(arrows(tokens[index:])[:1]))
    parameters = [it.text for it in tokens[1 : [it.text for it in tokens].index("=")]]
    if signature and name in parameters:
        behind = arrows(tokens_from(text, signature.start))[parameters.index(name) + 1 : len(parameters)]
        yield Mend(f"let {part.name} be applied once, in its signature", linear(behind))


def arrows(tokens):
    """Returns the arrows of a type that aren't within a part of it: the token in front of each, and its own."""
    found, index = [], 0
    while index < len(tokens):
        if tokens[index].text == "->":
            found.append(tokens[index - 1 : index + 1])
        index = atom_end(tokens, index)
    return found


def linear(arrows):
    return [(arrow.start, arrow.start, "1") for front, arrow in arrows if front.text != "1"]


def type_arguments(text, fault, path):
    """Mends a global with too many types behind `@`, or with too few of them where the arguments say which are
    missing."""
    tokens, (given, wanted) = tokens_from(text, fault.offset), map(int, re.findall("[0-9]+", fault.phrase))
    ends = [1]
    while tokens[ends[-1] :] and tokens[ends[-1]].text == "@":
        ends.append(atom_end(tokens, ends[-1] + 1))
    at = [tokens[end - 1].end for end in ends]
    if len(at) - 1 != given:
        return
    if given > wanted:
        yield Mend(f"no type arguments behind {tokens[0].text}", [(at[wanted], at[given], "")])
        return
    found = arguments_of(text, tokens, ends[-1], path)
    missing = [found.get(it) for it in source.variables(source.signature_of(text, tokens[0].text))[given:]]
    if all(missing):
        added = " ".join(
            f"@{it if atom_end(source.tokens(it), 0) == len(source.tokens(it)) else f'({it})'}" for it in missing
        )
        yield Mend(f"{tokens[0].text} {added}", [(at[given], at[given], f" {added}")])


def arguments_of(text, tokens, index, path):
    """Returns what the type variables of a global, the first of these tokens, stand for by the types of its arguments,
    which begin at an index."""
    signature, found = source.signature_of(text, tokens[0].text), {}
    aliases = {it.name: it.text.partition("=")[2] for it in source.declarations(text) if it.kind == "type"}
    for parameter in parameters_of(signature):
        if not tokens[index:] or tokens[index].kind not in (
            "lower", "upper", "number", "character"
        ) and tokens[index].text not in ATOMS:
            break
        end = atom_end(tokens, index)
        term = text[tokens[index].start : tokens[end - 1].end]
        # (it is asked for in place of the whole application, which is looked at first)
        argument = type_of(text, tokens[0].start, tokens[end - 1].end, term, path)
        if argument:
            found.update(solved(parameter, source.variables(signature), source.with_own_names(text, tokens[0].start, argument), aliases))
        index = end
    return found


def parameters_of(signature):
    """Returns the texts of the types in front of the arrows of a signature."""
    found = source.tokens(signature.text)
    begin = next((at for at, it in enumerate(found) if it.text == "."), 1) if source.variables(signature) else 1
    texts = []
    for front, arrow in arrows(found[begin + 1 :]):
        texts.append(signature.text[found[begin].end : front.start if front.text == "1" else arrow.start].strip())
        begin = found.index(arrow)
    return texts


def solved(parameter, variables, argument, aliases):
    """Returns what a type variable stands for where an argument of the type `argument` is taken for this parameter: it
    is the whole parameter, or comes last in it and what stands in front of it is the same tree as in the argument's
    type."""
    if parameter in variables:
        return {parameter: argument}
    try:
        reader = protocol.Reader(parameter, variables, aliases)
        *front, last = reader.whole()
        given = protocol.Reader(argument, set(re.findall(r"[^\W\dA-Z][\w']*", argument))).whole()
    except (protocol.Refused, ValueError, RecursionError):
        return {}
    if last.form != "variable" or list(given[: len(front)]) != front:
        return {}
    parts = given[len(front) :]
    texts = [reader.names.get(it) or protocol.text_of((it,)) for it in parts]
    texts[:-1] = [f"({it})" if it.startswith("rec ") else it for it in texts[:-1]]
    return {last.value: ";".join(texts) or "Skip"}


MENDS = {
    "type arguments": type_arguments,
    "unused": close_unused,
    "dropped": close_dropped,
    "captured": apply_once,
}


# Names.


def rename_fault(command, text, renamed, old, new, path):
    """Returns why it isn't certain that a renamed text means the same, or None: the program has to say of both the
    same."""
    before, after = (program.call([command], it, path=path).out.split("\n")[0] for it in (text, renamed))
    phrases = [re.sub("^(refused|undecided|limit) [0-9]+:[0-9]+", r"\1", it) for it in (before, after)]
    if not before or phrases[0].partition(" ")[2] in NOT_READ:
        return f"this text can't be read ({before or 'there is no answer'}), so nothing is certain of its names"
    if phrases[1] not in (phrases[0], re.sub(rf"(?<![\w']){re.escape(old)}(?![\w'])", new, phrases[0])):
        return f"with {new} for {old} the program would say: {after or 'nothing'}"
    return None
