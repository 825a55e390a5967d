"""Texts from tokens, in random layouts, and tokens from texts; the text of a tree of protocols.py; random changes of a text."""
import re

PIECES = re.compile(r"--[^\n]*|\n|[ \t\r]+|'(?:\\.|[^'\\\n])'|\d+|[^\W\d][\w']*|->|==|/=|<=|>=|&&|\|\||.", re.DOTALL)
SIGNS = "=<>&|-/+*!?~"


def pieces_of(text):
    """The text cut into tokens and what stands between them."""
    return PIECES.findall(text)


def tokens_of(text):
    return [piece for piece in pieces_of(text) if not piece.isspace() and not piece.startswith("--")]


def is_name_like(character):
    return character.isalnum() or character in "_'"


def must_part(first, second):
    """Whether two tokens would be read as others with nothing between them."""
    return is_name_like(first[-1]) and is_name_like(second[0]) or first[-1] in SIGNS and second[0] in SIGNS


def tidy(tokens):
    """One space between tokens, where the usual spelling has one."""
    text = ""
    for token in tokens:
        if text and text[-1] not in "!?({;@" and token not in ")};,.:" and not (text[-1] in "+&" and token == "{"):
            text += " "
        text += token
    return text


def laid_out(random, tokens, line="\n"):
    """The tokens in a random layout; `line` is what a line break is, with a space behind it where one has to go on."""
    style = random.random()
    if style < 0.5:
        return tidy(tokens)
    text = ""
    for token in tokens:
        if style < 0.75:
            text += " " if text and must_part(text, token) else ""
        else:
            text += between(random, line) if text else ""
        text += token
    return text


def between(random, line):
    chance = random.random()
    if chance < 0.8:
        return " "
    return random.choice(["  ", "\t", " \r", line, line, " -- a comment" + line, " --" + line, line + "--;'\"é" + line])


def tokens_of_tree(tree, random=None, first=False):
    """The tokens of a tree; with `random` in parentheses that it doesn't need, too. `first`: where it stands in front of a `;`."""
    form = tree[0]
    if form in ("!", "?"):
        tokens = [form, *(["(", ")"] if tree[1] == "()" else [tree[1]])]
    elif form in ("+", "&"):
        tokens = [form, "{"]
        for label, part in tree[1]:
            tokens += [label, ":", *tokens_of_tree(part, random), ","]
        tokens[-1] = "}"
    elif form == ";":
        tokens = [*tokens_of_tree(tree[1], random, True), ";", *tokens_of_tree(tree[2], random)]
    elif form == "rec":
        tokens = ["rec", tree[1], ".", *tokens_of_tree(tree[2], random)]
    else:
        tokens = [tree[-1]]
    if first and form in (";", "rec") or random and random.random() < 0.06:
        return ["(", *tokens, ")"]
    return tokens


def text_of_tree(tree):
    return tidy(tokens_of_tree(tree))


# Changes of a text that know nothing of what it means.

STRAY = ["Skip", "Close", "rec", "x", "A", "5", "'c'", "(", ")", "{", "}", ";", ":", ",", ".", "=", "~", "!", "?", "+", "&", "*", "-", "->",
         "1", "1S", "@", "\\", "|", "||", "&&", "==", "forall", "let", "in", "if", "case", "of", "send", "not", "new", "\n", " ", "#", "'",
         "\"", "é", "--", "\0", "\u2028", "x'", "0", "9223372036854775808", "Int", "True", "data", "type", "main"]


def disturbed(random, text):
    """The text with a token left out, put in, doubled, exchanged or replaced."""
    pieces = pieces_of(text) or [""]
    place = random.randrange(len(pieces))
    change = random.randrange(5)
    if change == 0:
        del pieces[place]
    elif change == 1:
        pieces.insert(place, random.choice(STRAY))
    elif change == 2:
        pieces.insert(place, random.choice(pieces))
    elif change == 3:
        pieces[place] = random.choice(STRAY)
    else:
        another = random.randrange(len(pieces))
        pieces[place], pieces[another] = pieces[another], pieces[place]
    return "".join(pieces)


def damaged(random, data):
    """The bytes with some of them left out, put in or replaced."""
    data = bytearray(data)
    for _ in range(random.randint(1, 3)):
        place = random.randrange(len(data) + 1)
        byte = random.choice([random.randrange(256), 0, 9, 13, 0x80, 0xC3, 0xED, 0xF4, 0xFF])
        data[place:place + random.randint(0, 1)] = bytes([byte]) * random.randint(0, 2)
    return bytes(data)
