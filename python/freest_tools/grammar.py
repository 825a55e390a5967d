"""The grammar of docs/LANGUAGE.md, read from that page, and what could stand at a place of a text by it.

A text is followed by the items of Earley's method. An item is a rule with a mark in it, and the number of the token at
which the rule began: what stands before the mark has been read since. The items behind the last token say what may come
next, and what is open.
"""
import collections
import functools
import re

from . import refusals

MOST_TOKENS = 3000  # of a declaration up to the place; a longer one takes too long
CLASSES = {
    "lname": lambda token: token.kind == "lower",
    "uname": lambda token: token.kind == "upper",
    "number": lambda token: token.kind == "number",
    "character": lambda token: token.kind == "character",
    "one": lambda token: token.kind == "number" and int(token.text) == 1,
}
TYPES = ("type", "seqtype", "tatom", "alt")
OPERATORS = set("+ - * == /= < <= > >= && ||".split())
# What is said of the parts of the grammar that may stand at a place.
SAID = {
    "lname": "a name that begins with a small letter", "uname": "a name that begins with a capital letter", "number": "a number",
    "character": "a character", "one": "`1`", "decl": "a declaration", "maker": "a constructor", "kind": "a kind: `1S`, `*S`, `1T` or `*T`",
    "binder": "a variable with its kind, such as `a:1S`", "alt": "a label with its type, such as `A: Skip`",
    "base": "`Int`, `Bool`, `Char` or `()`", "tatom": "a type", "seqtype": "a type", "type": "a type", "arrow": "`->` or `1->`",
    "carm": "an arm, such as `A x -> e`", "marm": "an arm, such as `A c -> e`", "atom": "a name, a value or a term in parentheses",
    **dict.fromkeys(("app", "unary", "prod", "sum", "cmp", "and", "or", "expr"), "a term"),
}

# `says` has what may come next, as SAID has it; `symbols` the parts of the grammar and the tokens that these are, and
# TYPE within a type; `open` the rules that wait for a token: the token that they want, and the index of the token with
# which they began.
Expected = collections.namedtuple("Expected", "says symbols open")


@functools.lru_cache(maxsize=None)
def rules():
    """Returns the rules of the page: of each name its sequences of symbols. A symbol is a name, or a token in double
    quotes."""
    block = re.search(r"\n## The grammar\n.*?```\n(.*?)```", refusals.page(), re.S)
    found = {}
    for name, right in re.findall(r"(?m)^(\w+) +=((?:.|\n(?= ))*)", block[1] if block else ""):
        symbols = re.findall(r'"[^"]+"|\w+|[][{}()|]', right)
        found[name] = choices(symbols, found)
        assert not symbols, name
    return found


def choices(symbols, found):
    """Reads sequences with `|` between them, up to a closing bracket, and takes them out of `symbols`. Brackets get
    rules of their own."""
    sequences = [[]]
    while symbols and symbols[0] not in ")]}":
        symbol = symbols.pop(0)
        if symbol == "|":
            sequences.append([])
        elif symbol in ("(", "[", "{"):
            helper = f"{len(found)} {symbol}"
            found[helper] = []
            inner = choices(symbols, found)
            symbols.pop(0)
            again = [helper] if symbol == "{" else []
            found[helper] = [tuple(again + list(it)) for it in inner] + ([()] if symbol != "(" else [])
            sequences[-1].append(helper)
        else:
            sequences[-1].append(symbol)
    return [tuple(it) for it in sequences]


@functools.lru_cache(maxsize=None)
def can_be_empty():
    """Returns the names of the rules that may stand for no token."""
    empty = set()
    while True:
        more = {name for name, sequences in rules().items() if any(set(it) <= empty for it in sequences)} - empty
        if not more:
            return empty
        empty |= more


def fits(symbol, token):
    """Returns whether a symbol that isn't a rule's name stands for this token."""
    return CLASSES[symbol](token) if symbol in CLASSES else symbol == f'"{token.text}"'


def follow(tokens, start="decl"):
    """Returns the sets of items in front of each token of a text of this rule and behind the last one, as far as the
    text goes on.

    An item is a name, one of its sequences, how many symbols of it are read, and the index of the token with which it
    begins."""
    sets = []
    items = {(start, sequence, 0, 0): None for sequence in rules()[start]}
    for index in range(len(tokens) + 1):
        complete(items, index, sets)
        sets.append(items)
        if index < len(tokens):
            items = {
                (name, sequence, at + 1, begin): None
                for name, sequence, at, begin in items
                if at < len(sequence) and sequence[at] not in rules() and fits(sequence[at], tokens[index])
            }
            if not items:
                break
    return sets


def complete(items, index, sets):
    """Adds to the items in front of a token what they want to begin there, and what goes on where one of them is
    done."""
    waiting = list(items)
    while waiting:
        name, sequence, at, begin = waiting.pop()
        new = []
        if at == len(sequence):
            before = sets[begin] if begin < index else items
            new = [(a, b, c + 1, d) for a, b, c, d in before if c < len(b) and b[c] == name]
        elif sequence[at] in rules():
            new = [(sequence[at], it, 0, index) for it in rules()[sequence[at]]]
            if sequence[at] in can_be_empty():
                new.append((name, sequence, at + 1, begin))
        for item in new:
            if item not in items:
                items[item] = None
                waiting.append(item)


def expected(tokens, start="decl"):
    """Returns what may stand behind these tokens, which begin a text of this rule; or None where that isn't known."""
    if start not in rules() or len(tokens) > MOST_TOKENS:
        return None
    sets = follow(tokens, start)
    if len(sets) <= len(tokens):
        return None
    symbols, wanted = [], []
    for name, sequence, at, begin in sets[-1]:
        if at or name == start:
            symbols += fronts(sequence[at:])
        if at and name in TYPES:
            symbols.append("TYPE")
        if 0 < at < len(sequence) and sequence[0].startswith('"') and sequence[at].startswith('"'):
            wanted.append((sequence[at].strip('"'), begin))
        if name == start and at == len(sequence) and begin == 0:
            symbols.append("end")
    return Expected(
        described(symbols, start), {it.strip('"') for it in symbols}, sorted(set(wanted), key=lambda it: -it[1])
    )


def fronts(sequence, within=()):
    """Returns the symbols with which a part of a sequence may begin, those of brackets in their place."""
    found = []
    for symbol in sequence:
        if not symbol[0].isdigit():
            return found + [symbol]
        if symbol not in within:
            found += [front for it in rules()[symbol] for front in fronts(it, (*within, symbol))]
        if symbol not in can_be_empty():
            break
    return found


def described(symbols, start):
    """Returns what these symbols are called, each once: parts of the grammar first, then tokens."""
    signs = [it.strip('"') for it in symbols if it.startswith('"')]
    said = [SAID[it] for it in symbols if it in SAID]
    said += ["an operator"] * any(it in OPERATORS for it in signs)
    said += [f"`{it}`" for it in sorted(signs) if it not in OPERATORS]
    said += [f"the end of the {'question' if start == 'question' else 'declaration'}"] * ("end" in symbols)
    return list(dict.fromkeys(said))
