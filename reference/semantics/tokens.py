"""The tokens of a text (docs/LANGUAGE.md, Tokens).

The kind of a reserved word or sign is its text; the other kinds are "lower", "upper", "number", "character" and, behind the
last token, "end". Which characters names have is asked of Python, whose tables may be of another year than the program's.
"""
import re
from collections import namedtuple
from itertools import accumulate

from .faults import MOST_NAME, MOST_NUMBER, Fault

Token = namedtuple("Token", "kind value at begins_line")

RESERVED = set("""data type forall rec new send receive select match with case of let in if then else fork not close wait
    True False Int Bool Char Skip Close Wait""".split())
PIECE = re.compile(r"""(?P<blank>[ \t\r\n]+|--[^\n]*)
    |(?P<name>[A-Za-z_\x80-\U0010ffff][A-Za-z0-9_'\x80-\U0010ffff]*)
    |(?P<number>[0-9]+)
    |(?P<character>'(?:[^'\\\t\n\r]|\\[nt\\'])')
    |(?P<sign>->|==|/=|<=|>=|&&|\|\||[-!?+*&{}():,;.=@~\\<>|])""", re.VERBOSE)
ESCAPES = {"\\n": "\n", "\\t": "\t", "\\\\": "\\", "\\'": "'"}


def text_of(data):
    """The characters of some bytes, or the first byte that begins none."""
    try:
        return data.decode()
    except UnicodeDecodeError as error:
        raise Fault(error.start, "not utf-8") from None


def lex(data):
    """`Lexes`: the tokens of some bytes, or `Refuses`: the first fault from the left."""
    text = text_of(data)
    places = None if text.isascii() else [0, *accumulate(len(c.encode()) for c in text)]
    tokens, place = [], 0
    while place < len(text):
        at = places[place] if places else place
        kind, piece = next_piece(text, place, at)
        if kind != "blank":
            tokens.append(Token(*kind_and_value(kind, piece, at), at, place == 0 or text[place - 1] == "\n"))
        place += len(piece)
    tokens.append(Token("end", None, len(data), text == "" or text[-1] == "\n"))
    return tokens


def next_piece(text, place, at):
    """`IsNext`: the longest piece at the front of what is left, and its kind."""
    found = PIECE.match(text, place)
    piece = found and found.group()
    if found and found.lastgroup == "name" and not piece.isascii():
        piece = name_in(piece)
    if not piece:
        raise Fault(at, "bad character")
    return found.lastgroup, piece


def name_in(piece):
    """The longest name at the front of a piece, if there is one."""
    end = 0
    while end < len(piece) and (piece[end] == "'" and end > 0 or ("_" * (end > 0) + piece[end]).isidentifier()):
        end += 1
    return piece[:end]


def kind_and_value(kind, piece, at):
    """`token_of`: what a piece is as a token, or what is wrong with it."""
    if kind == "name":
        if len(piece.encode()) > MOST_NAME:
            raise Fault(at, "name too long")
        return piece if piece in RESERVED else "upper" if "A" <= piece[0] <= "Z" else "lower", piece
    if kind == "number":
        digits = piece.lstrip("0") or "0"
        if len(digits) > 19 or int(digits) > MOST_NUMBER:
            raise Fault(at, "number too wide")
        return kind, int(digits)
    return (kind, ESCAPES.get(piece[1:-1], piece[1:-1])) if kind == "character" else (piece, piece)
