"""The kinds of inputs: how each is made, what is asked besides, and what its answer must be."""
from trials import certificates, commands, following, grammar, limits, questions, texts


def module(makes):
    def maker(random):
        return ["check"], laid_out(random, makes(random)).encode()
    return maker


def laid_out(random, declarations):
    """The text of declarations that are texts, one a line, or now and then broken into lines and with comments."""
    if random.random() < 0.7:
        return "\n".join(declarations) + "\n"
    return grammar.module_text(random, [texts.tokens_of(declaration) for declaration in declarations])


def changed(random):
    """A well-typed module with a small change of a token, of a part in parentheses, or of a declaration."""
    declarations = random.choice([following.typed, following.two_sides])(random)
    for _ in range(random.choice([1, 1, 1, 2])):
        declarations = one_change(random, declarations)
    return ["check"], ("\n".join(declarations) + "\n").encode()


SORTS = [["Int", "Bool", "Char", "()"], ["!", "?"], ["+{", "&{"], ["->", "1->"], ["+", "-", "*", "==", "<", "&&", "||", "/=", ">="],
         ["Close", "Wait", "Skip", "!Int"], ["close", "wait", "receive", "fork"], ["1S", "*S", "1T", "*T"], ["True", "False", "0", "'a'", "()"],
         ["A", "B", "C", "Leaf", "Node", "Stop"], ["a", "c", "d", "x", "y", "n", "k", "m", "f"]]


def one_change(random, declarations):
    declarations = list(declarations)
    place = random.randrange(len(declarations))
    if random.random() < 0.1:
        change = random.randrange(3)
        if change == 0 and len(declarations) > 1:
            del declarations[place]
        elif change == 1:
            declarations.insert(random.randrange(len(declarations) + 1), declarations[place])
        else:
            declarations.insert(place, random.choice(["type P = !Int;P", "type Q = rec x. Skip;x", "data D0 = K1", "x : Int", "data E = E (Int -> Int)",
                                                      "f : forall a:1S, a:1S. Int", "main : Int", "type R = +{A: Skip, A: Skip}", "y = 5"]))
        return declarations
    pieces = texts.pieces_of(declarations[place])
    token = random.choice([number for number, piece in enumerate(pieces) if piece != " "])
    change = random.random()
    if change < 0.55:
        sort = [sort for sort in SORTS if pieces[token] in sort]
        names = [piece for piece in texts.tokens_of("\n".join(declarations)) if piece[0].isalpha() == pieces[token][0].isalpha()]
        pieces[token] = random.choice(random.choice(sort) if sort and random.random() < 0.7 else names or ["x"])
    elif change < 0.7:
        del pieces[token]
    elif change < 0.8:
        pieces.insert(token, pieces[token] + " ")
    else:
        pieces = part_exchanged(random, pieces)
    declarations[place] = "".join(pieces)
    return declarations


def part_exchanged(random, pieces):
    """One of the parts in parentheses or braces left out, put in place of another one, or without its parentheses."""
    parts, opened = [], []
    for place, piece in enumerate(pieces):
        if piece in ("(", "{"):
            opened.append(place)
        elif piece in (")", "}") and opened:
            parts.append((opened.pop(), place + 1))
    if not parts:
        return pieces
    (start, end), (first, last) = random.choice(parts), random.choice(parts)
    inside = random.choice([pieces[first:last], pieces[first:last], pieces[start + 1:end - 1], ["()"], ["5"], []])
    return pieces[:start] + inside + pieces[end:]


def certificate(random):
    words, data = random.choice([questions.equal, questions.equal, questions.normed])(random)
    return ["equiv", "--proof"], data


KINDS = {
    "finite": questions.finite, "recursive": questions.recursive, "quantified": questions.quantified, "closed": questions.closed,
    "equal": questions.equal, "normed": questions.normed, "refused": questions.refused, "text": grammar.any_module,
    "typed": module(following.typed), "changed": changed, "sides": module(following.two_sides), "words": commands.any_words,
    "certificate": certificate, "hostile": limits.hostile,
}


def further(random, kind, words, data, status, out):
    """Calls that are asked besides, once the first one is answered."""
    if kind == "certificate" and status == 0 and out.startswith((b"forall", b"rec")) or out[:1] in b"(!?+&SCWa" and b"\npairs" in out[:9999]:
        text = out.decode()
        calls = [(["audit"], text)]
        for _ in range(3):
            new = certificates.changed(random, text)
            calls.append((["audit"], new if random.random() < 0.8 else certificates.changed(random, new)))
        return [(words, text.encode()) for words, text in calls]
    if kind in ("typed", "sides", "changed") and status == 0:
        steps = ["--steps", str(random.choice([0, 1, 7, 60, 800, 800, 800, 3000]))]
        mode = random.choice([[], [], ["--events"], ["--workers", str(random.randint(2, 8))], ["--buffer", str(random.choice([1, 1, 2, 3, 10, 64]))]])
        return [(["run", *steps, *mode], data)]
    if kind in ("typed", "sides", "changed", "text") and random.random() < 0.3:
        return [(["show" if words == ["check"] else "check"], data)]
    return []


def broken_promise(kind, status, out):
    """What a kind promises of the answer, where that doesn't hold."""
    if kind == "equal" and out.startswith(b"no"):
        return "two types that are made equivalent are told apart"
    if kind in ("typed", "sides") and status not in (0, 5):
        return "a module that is made well typed isn't accepted"
    return None
