"""The text of a module or a question: its tokens, its declarations, and its places.

A place is a line and a column, both counted from 1, the column in bytes, as docs/LANGUAGE.md has it. An offset counts
characters of the text from 0. Nothing is refused here: of a text that is no module all this is found as far as it goes.
"""
import collections
import re

WORDS = set(
    "data type forall rec new send receive select match with case of let in if then else fork not close wait "
    "True False Int Bool Char Skip Close Wait".split()
)
TOKEN = re.compile(
    r"(?P<comment>--[^\n]*)|(?P<character>'(?:\\.|[^'\\\t\r\n])')|(?P<upper>[A-Z][\w']*)|(?P<lower>[^\W\d][\w']*)|(?P<number>[0-9]+)"
    r"|(?P<sign>->|==|/=|<=|>=|&&|\|\||[-!?+*&{}():,;.=@~\\<>|])|(?P<bad>[^ \t\r\n])"
)

# `kind` is that of the expression above, but "word" for a reserved word.
Token = collections.namedtuple("Token", "kind text start end")
# `kind` is "data", "type", "signature", "equation" or "other", and `name` what it declares, or None. `text` reaches to
# the next one.
Declaration = collections.namedtuple("Declaration", "kind name start text")


def tokens(text, with_comments=False):
    """Returns the tokens of a text."""
    found = [
        Token("word" if it[0] in WORDS else it.lastgroup, it[0], it.start(), it.end()) for it in TOKEN.finditer(text)
    ]
    return [token for token in found if with_comments or token.kind != "comment"]


def token_at(text, offset):
    """Returns the token at an offset, or the one that ends there; or None."""
    around = [token for token in tokens(text) if token.start <= offset <= token.end]
    return around[-1] if around and (
        around[-1].kind not in ("sign", "bad") or len(around) == 1
    ) else around[0] if around else None


def offset_of(text, line, column):
    """Returns the offset of a place; of one that isn't in the text, that of the nearest one before it."""
    lines = text.split("\n")
    if line > len(lines):
        return len(text)
    inside = lines[line - 1].encode("utf-8", "surrogateescape")[: max(column - 1, 0)].decode("utf-8", "ignore")
    return sum(len(it) + 1 for it in lines[: line - 1]) + len(inside)


def place_of(text, offset):
    """Returns the line and the column of an offset."""
    begin = text.rfind("\n", 0, offset) + 1
    return text.count("\n", 0, offset) + 1, len(text[begin:offset].encode("utf-8", "surrogateescape")) + 1


def declarations(text):
    """Returns the declarations of a text. Each one begins at the front of a line; what stands in front of the first one
    is left out."""
    first = next(iter(tokens(text)), None)
    if not first:
        return []
    starts = [
        first.start, *(it.start() for it in re.finditer(r"(?m)^(?!--)[^ \t\r\n]", text) if it.start() > first.start)
    ]
    return [declaration(text[one:two], one) for one, two in zip(starts, [*starts[1:], len(text)])]


def declaration(text, start):
    """Returns the declaration with this text, as its first tokens say."""
    front = tokens(text)
    one, two = (front + [Token("", "", 0, 0)])[:2]
    if one.text in ("data", "type") and two.kind == "upper":
        return Declaration(one.text, two.text, start, text)
    if one.kind == "lower" and two.text == ":":
        return Declaration("signature", one.text, start, text)
    if one.kind == "lower":
        return Declaration("equation", one.text, start, text)
    return Declaration("other", None, start, text)


def variables(signature):
    """Returns the names of the variables of a signature, in their order."""
    found = tokens(signature.text)
    if [token.text for token in found[2:3]] != ["forall"]:
        return []
    end = next((at for at, token in enumerate(found) if token.text == "."), 0)
    return [one.text for one, two in zip(found[3:end], found[4:end]) if one.kind == "lower" and two.text == ":"]


def type_of(signature):
    """Returns the type that a signature gives, in one line and without comments."""
    return " ".join(without_comments(signature.text).partition(":")[2].split())


def declaration_at(text, offset):
    """Returns the declaration at an offset, or None."""
    return max((part for part in declarations(text) if part.start <= offset), key=lambda part: part.start, default=None)


def signature_of(text, name):
    """Returns the signature of a name, or None."""
    return next((it for it in declarations(text) if (it.kind, it.name) == ("signature", name)), None)


def with_own_names(text, offset, found):
    """Returns a type, as the program writes it, with the names of the declaration at an offset for `a1`, `a2`, .., its
    type variables."""
    part = declaration_at(text, offset)
    signature = part and signature_of(text, part.name)
    own = variables(signature) if signature else []
    return re.sub(r"\ba([0-9]+)\b", lambda it: (own[int(it[1]) - 1 :] or [it[0]])[0], found)


def without_comments(text):
    """Returns a text without its comments, in which all else stands at its line."""
    return TOKEN.sub(lambda found: "" if found.lastgroup == "comment" else found[0], text)


def constructors(data):
    """Returns the names of the constructors of a data type, in their order."""
    if data.kind != "data":
        return []
    found = tokens(data.text)
    return [two.text for one, two in zip(found, found[1:]) if one.text in ("=", "|") and two.kind == "upper"]
